// relay-find: finds the Data Matrix symbols of pictures, and writes each as an image with one pixel for each module, as `relay scan`
// takes it. It decides nothing: a symbol is written as it was seen, and what is wrong of it is for the desk to correct or refuse.

#include "finder.h"

#include <cerrno>
#include <cstring>
#include <memory>
#include <new>

namespace {

constexpr const char *USAGE =
    "usage: relay-find [--labels K] [PICTURE ..]\n"
    "\n"
    "Finds the square Data Matrix symbols of pictures, and writes each to the standard output as an image (PBM)\n"
    "with one pixel for each module:\n"
    "\n"
    "    relay-find sheet.png | relay scan --file DESK\n"
    "\n"
    "A picture is PBM, PGM or PPM (several may follow each other), PNG or JPEG. Without a name, or where the\n"
    "name is -, it is read from the standard input. The standard error says of each picture how many symbols were\n"
    "found, and where one was seen that could not be sampled or is inverted (light on dark).\n"
    "\n"
    "--labels K says that each picture shows K different labels, 1 to 9,999: its search ends as soon as they are read,\n"
    "and not all of it may have been looked at.\n"
    "\n"
    "The status is 0 if in each picture a symbol was found and each that was seen was written, or the K labels were\n"
    "read. It is 1 otherwise: also if time was up, or a picture could not be read. It is 2 for a wrong command line.\n";

// What the command line asks for.
struct Line {
    // How many labels each picture shows, or 0 where that isn't said.
    int labels = 0;
    // The files to read; null is the standard input.
    std::vector<const char *> names;
};

// A number from 1 to 9,999, or 0 where the word is none.
int number_in(const char *word) {
    const size_t length = strlen(word);
    return length >= 1 && length <= 4 && strspn(word, "0123456789") == length ? atoi(word) : 0;
}

// Reads the words of a command line. Where one is wrong, says so and answers false.
bool read_line(int count, char **words, Line &line) {
    bool are_names = false;
    for (int i = 1; i < count; i++) {
        const std::string word = words[i];
        if (are_names || word[0] != '-') {
            line.names.push_back(words[i]);
        } else if (word == "-") {
            line.names.push_back(nullptr);
        } else if (word == "--") {
            are_names = true;
        } else if (word != "--labels") {
            fprintf(stderr, "relay-find: there is no option %s; --help says more\n", word.c_str());
            return false;
        } else if (i + 1 == count || (line.labels = number_in(words[++i])) == 0) {
            fputs("relay-find: --labels needs a number from 1 to 9999\n", stderr);
            return false;
        }
    }
    if (line.names.empty()) {
        line.names.push_back(nullptr);
    }
    return true;
}

bool asks_for_help(int count, char **words) {
    return count > 1 && (strcmp(words[1], "--help") == 0 || strcmp(words[1], "-h") == 0);
}

// A line on the standard error about a picture.
void say(const char *name, int number, const std::string &what) {
    fprintf(stderr, "relay-find: %s", name);
    if (number > 1) {
        fprintf(stderr, ", picture %d", number);
    }
    fprintf(stderr, ": %s\n", what.c_str());
}

std::string place_of(const Point &at) { return std::to_string(int(at.x)) + ", " + std::to_string(int(at.y)); }

// How many symbols and labels were found.
std::string counts_of(const Tally &tally, int expected) {
    return std::to_string(tally.found) + (tally.found == 1 ? " symbol" : " symbols") +
           (expected > 0 ? ", " + std::to_string(tally.labels) + " of " + std::to_string(expected) + " labels" : "") + (tally.is_late ? ", and time was up" : "");
}

// The symbols of one picture; whether the search was finished and all that were seen were written, or the expected labels were read.
bool find_in(const Picture &picture, int expected, const char *name, int number) {
    const Tally tally = find_symbols(picture, expected, [](const Symbol &symbol) {
        const std::vector<uint8_t> bytes = image_of(symbol);
        fwrite(bytes.data(), 1, bytes.size(), stdout);
    });
    say(name, number, counts_of(tally, expected));
    for (const Point &at : tally.lost) {
        say(name, number, "a symbol was seen and not sampled at " + place_of(at));
    }
    for (const Point &at : tally.inverted) {
        say(name, number, "a symbol is inverted (light on dark) at " + place_of(at) + "; pnminvert makes a picture's negative");
    }
    return expected > 0 ? tally.labels >= expected : tally.found > 0 && tally.lost.empty() && tally.inverted.empty() && !tally.is_late;
}

// The symbols of all pictures of a stream. What was found in one is out before the next is read.
bool find_in_all(FILE *in, int expected, const char *name) {
    bool is_well = true;
    for (int number = 1;; number++) {
        try {
            Picture picture;
            if (!read_picture(in, picture)) {
                if (number == 1) {
                    say(name, number, "no picture: it is empty");
                }
                return is_well && number > 1;
            }
            is_well &= find_in(picture, expected, name, number);
        } catch (const PictureFault &fault) {
            say(name, number, fault.what());
            return false;
        } catch (const std::bad_alloc &) {
            say(name, number, "no memory for so large a picture");
            return false;
        }
        if (fflush(stdout) != 0) {
            return false;
        }
    }
}

} // namespace

int main(int count, char **words) {
    if (asks_for_help(count, words)) {
        fputs(USAGE, stdout);
        return 0;
    }
    Line line;
    if (!read_line(count, words, line)) {
        return 2;
    }
    bool is_well = true;
    for (const char *name : line.names) {
        FILE *in = name ? fopen(name, "rb") : stdin;
        if (!in) {
            say(name, 1, strerror(errno));
            is_well = false;
            continue;
        }
        is_well &= find_in_all(in, line.labels, name ? name : "standard input");
        if (name) {
            fclose(in);
        }
        if (ferror(stdout)) {
            fprintf(stderr, "relay-find: the output can't be written\n");
            return 1;
        }
    }
    return is_well ? 0 : 1;
}

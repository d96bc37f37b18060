// Where a picture is as dark and light as a symbol.
#pragma once

#include "picture.h"

// The smallest symbol that is looked for, in pixels.
constexpr int LEAST_EXTENT = 24;

struct Box {
    int x, y, width, height;
};

// What some pixels have: the darkest and the lightest, and how much brighter each becomes from the left to the right and from above to
// below it, as sums of squares and of products.
struct Slopes {
    int darkest = 255;
    int lightest = 0;
    int pixels = 0;
    int across = 0;
    int down = 0;
    int both = 0;

    void add(const Slopes &other);

    // The slope in the direction in which it is least, as the root of its mean square: at an edge this is the noise.
    double least() const;
};

// The slopes of a picture in blocks of so many pixels each way, kept while symbols of it are painted over.
class Relief {
  public:
    static constexpr int BLOCK = 8;

    explicit Relief(const Picture &picture);

    // Looks again at a part of the picture that has changed.
    void look_again(const Picture &picture, const Box &changed);

    // The slopes of a block of so many pixels each way, a multiple of BLOCK, which the picture may cut.
    Slopes of_block(int x, int y, int extent) const;

    const int width, height;

  private:
    int across, down;
    std::vector<Slopes> blocks;
};

// Which blocks of so many pixels each way, a multiple of Relief::BLOCK, are textured: their darkest is much darker than the lightest near
// it, and what is near is not an edge, where brightness changes in one direction.
class Texture {
  public:
    Texture(const Relief &relief, int block);

    // Whether some block in the box and all around it are textured: a line of text is not so wide.
    bool is_solid(const Box &box) const;

    // Boxes round connected blocks that are textured, if some are solid; the larger ones first.
    std::vector<Box> boxes() const;

  private:
    int block, across, down;
    std::vector<bool> textured, solid;

    // Acts on a block, and on the eight around it.
    template <typename Act> void for_each_near(int at, Act act) const;

    // The box round the blocks that are connected with a block, which are seen from now on.
    Box box_round(int start, std::vector<bool> &unseen) const;
};

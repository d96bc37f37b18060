#include "dmtx.h"

#ifdef WITH_DMTX

#include <dmtx.h>
#include <poll.h>
#include <signal.h>
#include <sys/wait.h>
#include <unistd.h>

#include <algorithm>

namespace {

int milliseconds_to(Deadline deadline) {
    const auto left = std::chrono::duration_cast<std::chrono::milliseconds>(deadline - Clock::now()).count();
    return int(std::clamp<decltype(left)>(left, 0, 60'000));
}

// Writes the corners of each symbol to a pipe, as libdmtx finds it. A picture's rows count from the bottom there.
void find(const Picture &picture, Deadline deadline, int to) {
    std::vector<uint8_t> grey = picture.grey;
    DmtxImage *image = dmtxImageCreate(grey.data(), picture.width, picture.height, DmtxPack8bppK);
    DmtxDecode *decode = image ? dmtxDecodeCreate(image, 1) : nullptr;
    if (!decode) {
        return;
    }
    DmtxTime limit = dmtxTimeAdd(dmtxTimeNow(), milliseconds_to(deadline));
    for (DmtxRegion *region; (region = dmtxRegionFindNext(decode, &limit)) != nullptr; dmtxRegionDestroy(&region)) {
        DmtxMessage *message = dmtxDecodeMatrixRegion(decode, region, DmtxUndefined);
        if (!message) {
            continue;
        }
        dmtxMessageDestroy(&message);
        Corners corners;
        const DmtxVector2 unit[4] = {{0, 1}, {1, 1}, {1, 0}, {0, 0}};
        for (size_t i = 0; i < 4; i++) {
            DmtxVector2 at = unit[i];
            dmtxMatrix3VMultiplyBy(&at, region->fit2raw);
            corners[i] = {at.X, picture.height - at.Y};
        }
        if (write(to, &corners, sizeof corners) != sizeof corners) {
            return;
        }
    }
}

} // namespace

std::vector<Corners> corners_by_dmtx(const Picture &picture, Deadline deadline) {
    std::vector<Corners> found;
    int ends[2];
    // libdmtx stops the process at a picture of a few pixels.
    if (std::min(picture.width, picture.height) < 16 || milliseconds_to(deadline) == 0 || pipe(ends) != 0) {
        return found;
    }
    const pid_t child = fork();
    if (child == 0) {
        close(ends[0]);
        if (!freopen("/dev/null", "w", stderr)) {
            _exit(1);
        }
        find(picture, deadline, ends[1]);
        _exit(0);
    }
    close(ends[1]);
    pollfd waiting = {ends[0], POLLIN, 0};
    Corners corners;
    while (child > 0 && poll(&waiting, 1, milliseconds_to(deadline) + 200) > 0 && read(ends[0], &corners, sizeof corners) == sizeof corners) {
        found.push_back(corners);
    }
    close(ends[0]);
    if (child > 0) {
        kill(child, SIGKILL);
        waitpid(child, nullptr, 0);
    }
    return found;
}

#else

std::vector<Corners> corners_by_dmtx(const Picture &, Deadline) {
    return {};
}

#endif

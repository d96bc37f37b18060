// Symbols by libdmtx, which finds what is turned by any angle, and takes its time.
#pragma once

#include "finder.h"

// The corners of the square symbols that libdmtx finds in a picture until the deadline. It works in a process of its own, so that
// neither a fault of its nor its time is this program's. Nothing is found where this program was built without libdmtx.
std::vector<Corners> corners_by_dmtx(const Picture &picture, Deadline deadline);

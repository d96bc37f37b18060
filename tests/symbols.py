"""Symbols as ISO/IEC 16022:2006 has them, for scripts that share no code with the program: their sizes, their images, where
the bits of each codeword lie (Annex F), and the damage that can be corrected."""
import functools
import itertools

SIDES = [*range(10, 27, 2), *range(32, 53, 4), *range(64, 105, 8), 120, 132]
# Data codewords of each size, and the blocks of those that have more than one, as Table 7 has them.
DATA = [3, 5, 8, 12, 18, 22, 30, 36, 44, 62, 86, 114, 144, 174, 204, 280, 368, 456, 576, 696, 816, 1050, 1304]
BLOCKS = {52: 2, 64: 2, 72: 4, 80: 4, 88: 4, 96: 4, 104: 6, 120: 6, 132: 8}
# The cells of a codeword's bits, the most significant first, from that of its last bit.
SHAPE = [(-2, -2), (-2, -1), (-1, -2), (-1, -1), (-1, 0), (0, -2), (0, -1), (0, 0)]
# The cells of the four corner shapes; below 0 they count from the end.
CORNERS = [
    [(-1, 0), (-1, 1), (-1, 2), (0, -2), (0, -1), (1, -1), (2, -1), (3, -1)],
    [(-3, 0), (-2, 0), (-1, 0), (0, -4), (0, -3), (0, -2), (0, -1), (1, -1)],
    [(-3, 0), (-2, 0), (-1, 0), (0, -2), (0, -1), (1, -1), (2, -1), (3, -1)],
    [(-1, 0), (-1, -1), (0, -3), (0, -2), (0, -1), (1, -3), (1, -2), (1, -1)],
]


def pixels_of(image):
    """The rows of a packed image."""
    _, size, raster = image.split(b"\n", 2)
    width, height = map(int, size.split())
    each = (width + 7) // 8
    return [[raster[each * r + c // 8] >> 7 - c % 8 & 1 for c in range(width)] for r in range(height)]


def packed(rows):
    lines = [bytes(int("".join(map(str, (row + [0] * 7)[i : i + 8])), 2) for i in range(0, len(row), 8)) for row in rows]
    return b"P4\n%d %d\n" % (len(rows[0]), len(rows)) + b"".join(lines)


def placed(side):
    """The cells of each codeword in a mapping matrix, in the order of the codewords."""
    words, taken = [], set()

    def place(cells):
        cells = [(row % side, column % side) for row, column in cells]
        taken.update(cells)
        words.append(cells)

    def place_at(row, column):
        if 0 <= row < side and 0 <= column < side and (row, column) not in taken:
            cells = []
            for down, right in SHAPE:
                r, c = row + down, column + right
                r, c = (r + side, c + 4 - (side + 4) % 8) if r < 0 else (r, c)
                cells.append((r + 4 - (side + 4) % 8, c + side) if c < 0 else (r, c))
            place(cells)

    row, column = 4, 0
    while row < side or column < side:
        corners = [(row, column) == (side, 0), (row, column) == (side - 2, 0) and side % 4 != 0,
                   (row, column) == (side - 2, 0) and side % 8 == 4, (row, column) == (side + 4, 2) and side % 8 == 0]
        for cells in itertools.compress(CORNERS, corners):
            place(cells)
        while row >= 0 and column < side:
            place_at(row, column)
            row, column = row - 2, column + 2
        row, column = row + 1, column + 3
        while row < side and column >= 0:
            place_at(row, column)
            row, column = row + 2, column - 2
        row, column = row + 3, column + 1
    return words


class Size:
    """A size, by its side. Places are those of an image, with its quiet zone."""

    def __init__(self, side):
        regions = 1 if side < 32 else 2 if side < 64 else 4 if side < 120 else 6
        mapping = side - 2 * regions
        region = mapping // regions
        self.words = [[tuple(n + 2 * (n // region) + 2 for n in cell) for cell in cells] for cells in placed(mapping)]
        self.blocks = BLOCKS.get(side, 1)
        self.limit = (len(self.words) - DATA[SIDES.index(side)]) // self.blocks // 2
        inner = {n + 2 * (n // region) + 2 for n in range(mapping)}
        self.finder = [(r, c) for r in range(1, side + 1) for c in range(1, side + 1) if r not in inner or c not in inner]


size_of = functools.cache(Size)


def words_of(rows, count=None):
    """The codewords of an image's rows, as they stand there: all, or the first ones."""
    size = size_of(len(rows) - 2)
    return [int("".join(str(rows[r][c]) for r, c in cells), 2) for cells in size.words[:count]]


def worn(chance, image):
    """An image with as many wrong codewords in each block as can be corrected, or fewer, and with wrong modules in its finder
    patterns, up to an eighth."""
    rows = pixels_of(image)
    size = size_of(len(rows) - 2)
    wrong = chance.sample(size.finder, chance.randint(0, len(size.finder) // 8))
    for block in range(size.blocks):
        for cells in chance.sample(size.words[block :: size.blocks], chance.choice([size.limit, chance.randint(0, size.limit)])):
            wrong += chance.sample(cells, chance.randint(1, 8))
    for row, column in wrong:
        rows[row][column] ^= 1
    return packed(rows)

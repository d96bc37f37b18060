// Labels by ZXing: which page of which document a symbol is.
#pragma once

#include "symbol.h"

#include <optional>
#include <string>
#include <utility>

// A document's ID, as ZXing writes it, and a page's number from 0.
using Label = std::pair<std::string, int>;

// The label that a symbol is, if ZXing reads one from its modules.
std::optional<Label> label_of(const Symbol &symbol);

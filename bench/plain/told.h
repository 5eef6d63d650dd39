// The data that a report returns.
#pragma once

#include <vector>

#include "operations.h"
#include "rod_token.h"

using Data = std::vector<uint8_t>;

Data token_information_data(const Configuration &configuration, uint16_t unit, const KeptOperation &operation);

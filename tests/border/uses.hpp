// What the uses in uses.txt are made of.
#pragma once

#include "vls.hpp"

#include <string>
#include <vector>

using namespace std::literals;

extern std::vector<std::uint8_t> octets;
extern std::vector<std::uint32_t> entries, index;
extern std::string path;
extern char letters[8];
extern vls::Memtable table;
extern vls::Bundle bundle;
extern vls::Reader reader;
std::vector<std::uint8_t> make_octets();
std::string make_path();

// Lists as the paper writes them, made and judged here by its rules alone, and their words in the oracle's protocol.
#pragma once
#include "random.hpp"
#include <cstdint>
#include <string>
#include <vector>

using Bytes = std::vector<uint8_t>;

struct Version {
    std::string key;
    uint64_t seqno;
    uint8_t tag;
    std::string value;
};

const uint8_t TAGS[] = {0, 1, 2, 4};

// Key ascending, seqno descending.
bool before(const Version &a, const Version &b);

void put(Bytes &to, uint64_t number, int bytes);
uint64_t get(const Bytes &from, size_t at, int bytes);
Bytes encode(const std::vector<Version> &versions);

// The paper's answer to a list: number 0 and the count, or the refusal and the record. The versions read are told too.
struct Judged {
    uint64_t number, record, count;
};
Judged judge(const Bytes &list, std::vector<Version> *versions = nullptr);

// One bit of some bytes turned over, and now and then their end cut off.
void damage(Bytes &bytes, Random &random);

// A list in strict order, over few keys and seqnos so that histories are long.
std::vector<Version> draw_list(Random &random, size_t most);
// The same over these keys alone.
std::vector<Version> draw_list(Random &random, size_t most, const std::vector<std::string> &keys);
std::string draw_key(Random &random);
uint64_t draw_seqno(Random &random);

// A string's bytes, as the border takes them.
const uint8_t *bytes_of(const std::string &text);

std::string hex(const std::string &bytes);
char letter(uint8_t tag);
std::string word(const Version &version);
Version version_of(const std::string &word);

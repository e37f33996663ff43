// What is drawn: numbers, bytes and choices that a seed gives, the same ones on each machine.
//
// C++ leaves open which operand of a call or a sum is computed first, so no expression here or in the files
// that draw has two of these calls that matter, but for a list in braces, which goes from left to right.
#pragma once
#include <cstdint>
#include <initializer_list>
#include <string>
#include <utility>
#include <vector>

using Bytes = std::string;

struct Chance {
  uint64_t state;

  Chance(uint64_t seed, uint64_t number) : state(seed * 0x100000001b3 + number * 0x9e3779b97f4a7c15)
  {
    next();
    next();
  }

  uint64_t next()
  {
    uint64_t bits = (state += 0x9e3779b97f4a7c15);
    bits = (bits ^ (bits >> 30)) * 0xbf58476d1ce4e5b9;
    bits = (bits ^ (bits >> 27)) * 0x94d049bb133111eb;
    return bits ^ (bits >> 31);
  }

  uint64_t below(uint64_t end) { return end ? next() % end : 0; }
  uint64_t between(uint64_t least, uint64_t most) { return least + below(most - least + 1); }
  char byte() { return (char)next(); }

  // Whether something of a thousand parts is so.
  bool of_1000(uint64_t parts) { return below(1000) < parts; }
  bool percent(uint64_t parts) { return below(100) < parts; }

  template <class Item> const Item &one_of(const std::vector<Item> &items) { return items[below(items.size())]; }
  uint64_t one_of(std::initializer_list<uint64_t> items) { return items.begin()[below(items.size())]; }
  const char *text_of(std::initializer_list<const char *> items) { return items.begin()[below(items.size())]; }

  Bytes bytes(uint64_t many)
  {
    Bytes drawn(many, 0);
    for (char &it : drawn) it = byte();
    return drawn;
  }

  Bytes bytes_of(const Bytes &letters, uint64_t many)
  {
    Bytes drawn(many, 0);
    for (char &it : drawn) it = letters[below(letters.size())];
    return drawn;
  }

  template <class Item> void shuffle(std::vector<Item> &items)
  {
    for (size_t left = items.size(); left > 1; left--) std::swap(items[left - 1], items[below(left)]);
  }
};

// The model of the texts that are read and written. The rules are those of man/cdb.5, whose sections the
// comments name.
#pragma once
#include <cstdint>
#include <string>
#include <vector>
#include "format.h"
#include "rules.h"

// "The native text": a record as it is written, and a key of a list. "The amending text": the removal of one.
inline Bytes spelled(const Bytes &key, const Bytes &value)
{
  return "+" + std::to_string(key.size()) + "," + std::to_string(value.size()) + ":" + key + "->" + value + "\n";
}
inline Bytes spelled_key(const Bytes &key) { return "+" + std::to_string(key.size()) + ":" + key + "\n"; }
inline Bytes spelled_removal(const Bytes &key) { return "-" + std::to_string(key.size()) + ":" + key + "\n"; }

// What a text has: a record, a key alone or a removal, and where it begins.
struct Item {
  bool removes;
  Bytes key, value;
  uint64_t begin;
};

enum class Fault { Nothing, NotARecord, EndsEarly, TooLarge };

inline std::string line_of(Fault it)
{
  if (it == Fault::NotARecord) return "not a record";
  return it == Fault::EndsEarly ? "text ends early" : "length too large";
}

// What was read of a text: its items, where it ended, and the fault with its place.
struct Text {
  std::vector<Item> items;
  uint64_t end = 0;
  Fault fault = Fault::Nothing;
  uint64_t place = 0;
};

enum class Form { Native, Amending, Keys };

// The texts with lengths. A fault is named at the first byte that no such text could have there.
class Lengths {
  const Bytes &text;
  uint64_t at, most;
  Form form;
  Text read;

  bool fails(Fault fault, uint64_t place)
  {
    read.fault = fault;
    read.place = place;
    return false;
  }

  // One or more digits, zeros in front too, up to a greatest number, and the byte after them.
  bool number(char stop, uint64_t &number)
  {
    number = 0;
    for (uint64_t begin = at; at < text.size(); at++) {
      if (text[at] == stop && at > begin) return ++at;
      if (text[at] < '0' || text[at] > '9') return fails(Fault::NotARecord, at);
      uint64_t digit = text[at] - '0';
      if (number > most / 10 || number * 10 > most - digit) return fails(Fault::TooLarge, at + is_broken("a length is too large one byte later"));
      number = number * 10 + digit;
    }
    return fails(Fault::EndsEarly, at);
  }

  bool bytes(uint64_t many, Bytes &into)
  {
    if (many > text.size() - at) return fails(Fault::EndsEarly, text.size());
    into = text.substr(at, many);
    at += many;
    return true;
  }

  bool expect(const char *words)
  {
    for (; *words; words++, at++) {
      if (at == text.size()) return fails(Fault::EndsEarly, at);
      if (text[at] != *words) return fails(Fault::NotARecord, at);
    }
    return true;
  }

  // What follows the letter of an item.
  bool rest(Item &it)
  {
    uint64_t key, value;
    if (it.removes || form == Form::Keys) return number(':', key) && bytes(key, it.key) && expect("\n");
    return number(',', key) && number(':', value) && bytes(key, it.key) && expect("->") && bytes(value, it.value) && expect("\n");
  }

public:
  Lengths(const Bytes &text, uint64_t begin, int width, Form form) : text(text), at(begin), form(form)
  {
    most = width == 4 ? 4294967295u : 9223372036854775807u;
  }

  // Reads until the extra newline, or a fault.
  Text all()
  {
    for (;;) {
      if (at == text.size()) {
        fails(Fault::EndsEarly, at);
        break;
      }
      Item it{text[at] == '-', {}, {}, at};
      char letter = text[at++];
      if (letter == '\n') break;
      if (letter != '+' && !(it.removes && form == Form::Amending)) {
        fails(Fault::NotARecord, at - 1);
        break;
      }
      if (!rest(it)) break;
      read.items.push_back(it);
    }
    read.end = at;
    return read;
  }
};

inline bool is_blank(char it) { return it == ' ' || it == '\t'; }

inline uint64_t after_blanks(const Bytes &text, uint64_t at, uint64_t end)
{
  while (at < end && is_blank(text[at])) at++;
  return at;
}

// "The map text": a line is a key, blanks and a value; one without a key, or with '#' first, is ignored.
inline Text map_of(const Bytes &text, uint64_t begin)
{
  Text read;
  while (begin < text.size()) {
    uint64_t end = std::min(text.find('\n', begin), text.size());
    uint64_t key = after_blanks(text, begin, end);
    if (key < end && text[key] != '#') {
      uint64_t key_end = key;
      while (key_end < end && !is_blank(text[key_end])) key_end++;
      uint64_t value = after_blanks(text, key_end, end);
      read.items.push_back({false, text.substr(key, key_end - key), text.substr(value, end - value), begin});
    }
    begin = end + 1;
  }
  read.end = text.size();
  return read;
}

// How many lines end in a part of a text.
inline uint64_t lines_in(const Bytes &text, uint64_t begin, uint64_t end)
{
  return (uint64_t)std::count(text.begin() + begin, text.begin() + end, '\n');
}

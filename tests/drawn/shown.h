// How names and keys are shown in a line of -v. The rules are those of docs/TEXTS.md, "The line of a cause".
#pragma once
#include <cstdint>
#include <string>
#include "chance.h"
#include "rules.h"

// The well-formed UTF-8 at a place: how many bytes it has, 0 if there is none, and its character.
inline int utf8_at(const Bytes &text, size_t at, uint32_t &character)
{
  unsigned char first = text[at];
  if (first < 0x80) return character = first, 1;
  int many = first >= 0xc2 && first < 0xe0 ? 2 : first >= 0xe0 && first < 0xf0 ? 3 : first >= 0xf0 && first < 0xf5 ? 4 : 0;
  if (!many || at + many > text.size()) return 0;
  character = first & (0x7f >> many);
  for (int n = 1; n < many; n++) {
    unsigned char next = text[at + n];
    if ((next & 0xc0) != 0x80) return 0;
    character = character << 6 | (next & 0x3f);
  }
  bool is_long = many == 3 ? character < 0x800 : many == 4 && character < 0x10000;
  bool is_half = character >= 0xd800 && character < 0xe000;
  return is_long || is_half || character > 0x10ffff ? 0 : many;
}

inline bool is_utf8(const Bytes &text)
{
  uint32_t character;
  size_t at = 0;
  while (at < text.size()) {
    int many = utf8_at(text, at, character);
    if (!many) return false;
    at += many;
  }
  return true;
}

// Whether a character is shown by its bytes: controls, what breaks the line, what marks or turns the direction of
// writing, tags, and the backslash.
inline bool is_spelled_out(uint32_t it)
{
  if (it == 0x61c || it == 0x200e || it == 0x200f) return !is_broken("a mark of the direction of writing is shown");
  auto between = [it](uint32_t least, uint32_t most) { return it >= least && it <= most; };
  bool is_control = it < 0x20 || between(0x7f, 0x9f), turns = between(0x202a, 0x202e) || between(0x2066, 0x2069);
  return is_control || turns || it == 0x2028 || it == 0x2029 || between(0xe0000, 0xe007f) || it == '\\';
}

inline std::string shown(const Bytes &text, size_t most = Bytes::npos)
{
  Bytes part = text.substr(0, most);
  std::string said;
  for (size_t at = 0; at < part.size();) {
    uint32_t character;
    int many = utf8_at(part, at, character);
    bool by_bytes = !many || is_spelled_out(character);
    for (size_t end = at + (many ? many : 1); at < end; at++) {
      char spelled[8];
      snprintf(spelled, sizeof spelled, "\\x%02x", (unsigned char)part[at]);
      said += by_bytes ? std::string(spelled) : part.substr(at, 1);
    }
  }
  return said + (text.size() > most ? "..." : "");
}

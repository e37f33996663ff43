// Texts with one edit: cut at each byte, without each byte, and with each of 256 bytes in place of and before each.
#pragma once
#include "cases.h"
#include "texts.h"

// A text, and the letters of the command that reads it.
struct Edited {
  std::string letters;
  Bytes text;
};

inline const std::vector<Edited> EDITED = {
  {"c", "+3,5:one->Hello\n+3,7:two->Goodbye\n+0,0:->\n\n"},
  {"cW", "+3,5:one->Hello\n+03,0012:two->Goodbye\n+0,0\n\n"},
  {"cw", "+1,1:a->b\n+1,1:a->c\n+1,2:a->->\n\n"},
  {"cb", "-3:one\n+3,5:two->Again\n-0:\n-3:two\n\n"},
  {"cbr", "+3,1:one->\n\n-03:one\n+3,0:one->\n\n"},
  {"cbW", "-1:a\n+1,1:a->-\n-1:b\n\n"},
  {"cm", "# c\n one \tHello\n\n\ttwo\n-3:one\none  again\n"},
  {"cmr", "a b\na  c\n#a d\na\n b #\n"},
  {"c", "+4294967295,4294967295:a->"},
  {"c", "+4294967296,0:a->\n\n"},
  {"cW", "+9223372036854775807,9223372036854775808:"},
  {"cb", "-4294967296:a\n\n"},
  {"qi", "+3:one\n+3:two\n+0:\n+03:one\n\n"},
  {"qiW", "+1:a\n+9223372036854775808:b\n\n"},
  {"qim", "one\n two v\n#one\n\nthree\n"},
  {"qi", "+4294967295:a\n"},
  {"cu", "+3,1:one->1\n+3,1:one->2\n+11,2:+1,1:a->b\n->xy\n\n"},
  {"ce", "+1,0:a->\n+1,0:b->\n+1,0:a->\n\n"},
  {"c", "\n\n+1,1:a->b\n"},
  {"cb", "+1,1:a->b\n-1:a\n+1,1:a->c\n-1:\n\n\n"},
};

inline uint64_t edits_of(const Bytes &text)
{
  uint64_t size = text.size();
  return (size + 1) + size + 256 * size + 256 * (size + 1);
}

inline Bytes edit(Bytes text, uint64_t number)
{
  uint64_t size = text.size();
  if (number <= size) return text.substr(0, number);
  number -= size + 1;
  if (number < size) return text.erase(number, 1);
  number -= size;
  if (number >= 256 * size) return text.insert((number - 256 * size) / 256, 1, (char)(number % 256));
  text[number / 256] = (char)(number % 256);
  return text;
}

inline Case edited_case(const Edited &edited, uint64_t number)
{
  Case it;
  Asked &asked = it.asked;
  it.kind = "edit";
  it.input = edit(edited.text, number);
  it.input_is_pipe = number & 1;
  asked.command = edited.letters[0];
  asked.verbose = true;
  asked.names = {"x"};
  for (char letter : edited.letters.substr(1)) {
    if (letter == 'W') asked.wide = true;
    else if (letter == 'm') asked.map = true;
    else if (letter == 'i') asked.many = true;
    else if (letter == 'b') asked.base = "base";
    else if (letter == 'w' || letter == 'e') asked.warns = true;
    else asked.mode = letter;
    if (letter == 'e') asked.stops = true;
  }
  Bytes file = file_of({{"one", "Hello"}, {"two", "2"}, {"a", ""}, {"a", "second"}, {"", "empty"}}, asked.width());
  if (asked.base) it.files["base"].bytes = file;
  it.files["x"].bytes = asked.command == 'q' ? file : "old";
  // The base is the word after the letters, in which b comes last.
  std::string letters = edited.letters + "v";
  if (asked.base) letters.erase(letters.find('b'), 1) += 'b';
  it.words = {"-" + letters};
  if (asked.base) it.words.push_back("base");
  it.words.push_back("x");
  return it;
}

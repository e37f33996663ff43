// Drawn keys, records and texts.
#pragma once
#include "texts.h"

// Keys of one hash, and of one table: words of "bc" and "cB", which do the same to a hash, and words of two letters.
struct Alike {
  std::vector<Bytes> of_hash, chained;
  std::vector<std::vector<Bytes>> of_table;

  static std::vector<Bytes> longer(const std::vector<Bytes> &words)
  {
    std::vector<Bytes> more;
    for (const Bytes &it : words)
      for (const char *end : {"bc", "cB"}) more.push_back(it + end);
    return more;
  }

  Alike() : of_hash{""}, chained{""}
  {
    for (int n = 0; n < 6; n++) of_hash = longer(of_hash);
    std::vector<Bytes> last = chained;
    for (int n = 0; n < 3; n++) {
      last = longer(last);
      chained.insert(chained.end(), last.begin(), last.end());
    }
    std::vector<std::vector<Bytes>> words(TABLES);
    for (char first = 'a'; first <= 'z'; first++)
      for (char second = 'A'; second <= 'z'; second++) {
        Bytes word{first, second};
        words[hash_of(word) % TABLES].push_back(word);
      }
    for (const auto &it : words)
      if (it.size() > 4) of_table.push_back(it);
  }
};

// Keys and names that a text, a line or a screen may take for something else.
inline const std::vector<Bytes> ODD_KEYS = {
  "", "\n", Bytes(1, 0), "#x", " b", "\xc3\xa9", "-k", "--", "a b", "one", "+1,1:a->b", "\\", "\x7f", "\xc2\x80",
  "\xe6\x97\xa5\xe6\x9c\xac", "\xe2\x80\xae", "\xe2\x80\xa8", "\xd8\x9c", "\xe2\x80\x8e", "\xe2\x80\x8f!", "\xf3\xa0\x80\xa1",
  "\xed\xa0\x80", "\xf4\x90\x80\x80", "\xc0\x80", "\xe2\x82", "\xef\xbb\xbf", "\xf0\x9f\x98\x80", "\xe2\x81\xa6",
};

template <class Draw> std::vector<Bytes> many_of(uint64_t many, Draw draw)
{
  std::vector<Bytes> drawn;
  for (; many; many--) drawn.push_back(draw());
  return drawn;
}

// The keys of a case.
inline std::vector<Bytes> drawn_keys(Chance &chance)
{
  static const Alike alike;
  static const std::vector<Bytes> few = {"a", "one", "two", "", "bc"};
  switch (chance.below(10)) {
  case 0: return many_of(chance.between(1, 3), [&] { return chance.one_of(few); });
  case 1: return many_of(chance.between(2, 15), [&] { return chance.one_of(alike.chained); });
  case 2: return chance.one_of(alike.of_table);
  case 3: return many_of(chance.between(1, 30), [&] { return chance.bytes(chance.one_of({0, 1, 2, 3, 8, 30})); });
  case 4: return many_of(chance.between(1, 20), [&] { return chance.bytes_of(Bytes("ab \t#\r\n\0:,+->19", 15), chance.below(5)); });
  case 5: return many_of(chance.between(1, 40), [&] { return Bytes(1, chance.byte()); });
  case 6: return {"a", chance.bytes(chance.one_of({255, 256, 257, 4095, 4096, 4097, 5000}))};
  case 7: {
    uint64_t n = 0;
    return many_of(chance.one_of({50, 200, 1000}), [&] { return "k" + std::to_string(n++); });
  }
  case 8: return many_of(chance.between(2, 30), [&] { return chance.one_of(alike.of_hash); });
  default: return ODD_KEYS;
  }
}

// A value: none, short, or as long as a buffer and a window of the program, or a byte more or less.
inline Bytes drawn_value(Chance &chance)
{
  uint64_t how = chance.below(1000);
  if (how < 200) return "";
  if (how < 700) return chance.bytes_of("abcXYZ \t\n#\r->+0,:", chance.between(1, 9));
  if (how < 985) return chance.bytes(chance.below(61));
  if (how < 998) return chance.bytes(chance.one_of({4080, 4095, 4096, 4097, 8192, 9000}));
  uint64_t many = chance.one_of({65519, 65527, 65535, 65536, 65537, 70000, 131072, 200000});
  return Bytes(many, chance.byte());
}

inline Records drawn_records(Chance &chance, const std::vector<Bytes> &keys)
{
  Records records;
  uint64_t many = chance.one_of({0, 1, 1, 2, 2, 3, 4, 5, 8, 13, 25, 60});
  if (chance.of_1000(15)) {
    many = chance.one_of({300, 1000, 3000});
    for (const Bytes &it : keys)
      if (it.size() > 40) many = 60;
  }
  // Of many records most are without a value.
  for (bool are_many = many > 100; many; many--) {
    const Bytes &key = chance.one_of(keys);
    records.push_back({key, are_many && !chance.percent(1) ? Bytes() : drawn_value(chance)});
  }
  return records;
}

// A length, now and then with zeros in front.
inline std::string drawn_length(Chance &chance, uint64_t length)
{
  std::string zeros(chance.percent(8) ? chance.one_of({1, 1, 2, 9, 30, 400}) : 0, '0');
  return zeros + std::to_string(length);
}

// Lengths about the greatest ones.
inline const std::vector<std::string> GREAT = {
  "4294967294", "4294967295", "4294967296", "42949672950", "42949672960", "99999999999", "4294967300", "9223372036854775807",
  "9223372036854775808", "9223372036854775806", "18446744073709551615", "18446744073709551616", "18446744073709551620",
  "10000000000000000000000000000000000000000", "004294967295", "004294967296", "2147483648", "92233720368547758070",
};

// A text that is cut, has another byte, one more or less, or something behind it; half of them stay as they are.
inline Bytes harmed(Chance &chance, Bytes text)
{
  static const Bytes odd("+,:->\n0189 a-\0\xff\r", 17);
  static const std::vector<Bytes> more = {"rest", "\n", "+1,1:a->b\n\n", "*", Bytes(5000, 0), "+1,1:", "-1:a\n\n", "+1:a\n\n"};
  uint64_t how = chance.below(100);
  if (how < 55 || text.empty()) return text;
  if (how < 74) return text.substr(0, how < 70 ? chance.below(text.size() + 1) : text.size() - 1);
  if (how >= 93) return text + chance.one_of(more);
  uint64_t at = chance.below(text.size());
  char other = odd[chance.below(odd.size())];
  if (how < 82) text[at] = other;
  else if (how < 88) text.insert(at, 1, other);
  else if (how < 91) text.erase(at, 1);
  else text[at] ^= 1 << chance.below(8);
  return text;
}

inline Bytes drawn_removal(Chance &chance, const std::vector<Bytes> &keys)
{
  const Bytes &key = chance.one_of(keys);
  return "-" + drawn_length(chance, key.size()) + ":" + key + "\n";
}

// A record of which a length is about the greatest one.
inline Bytes great_record(Chance &chance, const std::vector<Bytes> &keys)
{
  const std::string &great = chance.one_of(GREAT), &other = chance.one_of(GREAT);
  const Bytes &key = chance.one_of(keys), value = drawn_value(chance);
  switch (chance.below(4)) {
  case 0: return "+" + great + "," + std::to_string(value.size()) + ":" + key + "->" + value + "\n";
  case 1: return "+" + std::to_string(key.size()) + "," + great + ":" + key + "->" + value + "\n";
  case 2: return "+" + great + "," + other + ":";
  default: return "-" + great + ":" + key + "\n";
  }
}

// A native text, with removals if it amends.
inline Bytes drawn_native(Chance &chance, const std::vector<Bytes> &keys, bool amends, bool is_harmed)
{
  Bytes text;
  for (const Record &it : drawn_records(chance, keys)) {
    if (amends && chance.percent(25)) text += drawn_removal(chance, keys);
    text += "+" + drawn_length(chance, it.key.size());
    text += "," + drawn_length(chance, it.value.size()) + ":" + it.key + "->" + it.value + "\n";
  }
  if (amends && chance.percent(40)) text += drawn_removal(chance, keys);
  if (is_harmed && chance.percent(20)) text += great_record(chance, keys);
  text += "\n";
  return is_harmed ? harmed(chance, text) : text;
}

// A map, or bytes that are one too.
inline Bytes drawn_map(Chance &chance, const std::vector<Bytes> &keys)
{
  if (chance.percent(25)) return chance.bytes_of(Bytes("ab#\n \t\r\0=x", 10), chance.below(121));
  Bytes text;
  for (const Record &it : drawn_records(chance, keys)) {
    if (chance.percent(20)) text += Bytes(chance.text_of({"", "#", "# note", " \t ", "\t#x", "\r", "\xa0 v", "\x0b k v", " # a"})) + "\n";
    text += chance.text_of({"", "", " ", "\t \t"}) + it.key;
    text += chance.text_of({" ", "\t", "  \t", ""}) + it.value;
    text += Bytes(chance.text_of({"", "", " ", "\t", "\r"})) + "\n";
  }
  if (!text.empty() && chance.percent(30)) text.pop_back();
  else if (chance.percent(20)) text += "\n";
  return text;
}

// A list of keys, some of them in no database.
inline Bytes drawn_list(Chance &chance, const std::vector<Bytes> &keys, bool is_map, bool is_harmed)
{
  Bytes text;
  uint64_t many = chance.one_of({0, 1, 1, 2, 3, 5, 9, 30, 100}), others = chance.one_of({0, 0, 10, 50, 100});
  if (chance.percent(2)) many = 3000;
  for (; many; many--) {
    Bytes key = chance.one_of(keys);
    if (chance.percent(others)) key += chance.text_of({"x", "", "\xff"});
    text += is_map ? chance.text_of({"", "", " ", "\t"}) : "+" + drawn_length(chance, key.size()) + ":";
    text += key;
    text += is_map ? Bytes(chance.text_of({"", " v", "\tv w", " ", "\r"})) + "\n" : "\n";
  }
  if (is_map) {
    if (!text.empty() && chance.percent(30)) text.pop_back();
    return text;
  }
  if (is_harmed && chance.percent(20)) {
    text += "+" + chance.one_of(GREAT) + ":";
    text += chance.one_of(keys);
  }
  text += "\n";
  return is_harmed ? harmed(chance, text) : text;
}

// Rules of the model that can be broken on purpose, one at a time, to see that the drawn cases would tell.
#pragma once
#include <cstdlib>
#include <string>
#include <vector>

// What is so where a rule is broken.
inline const std::vector<std::string> BROKEN = {
  "a base without tables is taken",
  "a replacement keeps the earlier records",
  "a record beside an earlier one of its key is kept",
  "a length is too large one byte later",
  "a record may be in two slots",
  "a search ends at the last slot",
  "a difference removes no new key",
  "a mark of the direction of writing is shown",
  "a second hyphen counts lines anew",
  "an output that is full is passed over",
};

// The rule that is broken, if one is.
inline std::string broken;

// Whether a rule is broken. Its words are those of the list.
inline bool is_broken(const char *rule)
{
  for (const std::string &it : BROKEN)
    if (it == rule) return it == broken;
  abort();
}

// A case: a command with what it is given, and what it must leave.
#pragma once
#include <map>
#include <optional>
#include <set>
#include <string>
#include <vector>
#include "chance.h"

struct File {
  bool is_folder = false;
  Bytes bytes;
  bool operator==(const File &other) const { return is_folder == other.is_folder && bytes == other.bytes; }
};
using Files = std::map<std::string, File>;

// What the words of a command line ask for.
struct Asked {
  char command = 0, mode = 'a'; // the command's letter; -r, -u, or each record is added
  bool map = false, wide = false, verbose = false, many = false, warns = false, stops = false;
  std::optional<uint64_t> number;
  std::optional<std::string> temporary, base;
  std::vector<std::string> names;

  int width() const { return wide ? 8 : 4; }
  // The inputs that the names from the second on are, standard input if there is none.
  std::vector<std::string> inputs() const
  {
    if (names.size() < 2) return {"-"};
    return {names.begin() + 1, names.end()};
  }
};

enum class Output { Kept, Full, Closed };

struct Case {
  std::string kind;
  Asked asked;
  std::vector<std::string> words;
  Files files;
  Bytes input;
  bool input_is_folder = false, input_is_pipe = false, errors_are_full = false;
  Output output = Output::Kept;
};

// How it ends. What the pages leave open is not known, and of some files they say nothing.
struct Ending {
  bool is_known = true;
  int status = 0;
  Bytes output;
  std::string errors;
  Files files;
  std::set<std::string> open;

  void line(const std::string &said) { errors += "cdb: " + said + "\n"; }
};

// man/cdb.1, "Causes of faults": the line of a fault, and with -v a second one.
inline void fails(const Case &it, Ending &end, int status, const std::string &line, const std::string &cause)
{
  end.status = status;
  end.line(line);
  if (it.asked.verbose) end.line(cause);
}

const std::string STANDARD_INPUT = "standard input", STANDARD_OUTPUT = "standard output";
const std::string NOT_THERE = ": No such file or directory", A_FOLDER = ": Is a directory";
const std::string NOT_OPENED = "file cannot be opened";
const std::string NO_TABLES = "no tables before its records";

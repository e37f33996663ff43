// The model of the command: how a case ends.
#pragma once
#include "creates.h"
#include "reads.h"

// What comes of a standard error that takes nothing: no line, and a create that cannot report a duplicate fails.
inline void lose_errors(const Case &it, Ending &end)
{
  if (it.asked.command == 'c' && end.errors.find("duplicate key\n") != std::string::npos) {
    end.status = 111;
    end.output.clear();
    end.files = it.files;
    Create(it, end).leaves(false);
  }
  end.errors.clear();
}

// What comes of a standard output that takes nothing. If another fault is met too, either may be reported.
inline void lose_output(const Case &it, Ending &end)
{
  if (end.output.empty()) return;
  if (end.status == 111) end.is_known = false;
  end.output.clear();
  if (is_broken("an output that is full is passed over")) return;
  fails(it, end, 111, "output cannot be written", STANDARD_OUTPUT + (it.output == Output::Full ? ": No space left on device" : ": Broken pipe"));
}

inline Ending ending_of(const Case &it)
{
  Ending end;
  end.files = it.files;
  if (it.asked.command == 'c') Create(it, end).run();
  else if (it.asked.command == 'D') Difference(it, end).run();
  else read_one(it, end);
  if (it.errors_are_full) lose_errors(it, end);
  else if (it.output != Output::Kept) lose_output(it, end);
  return end;
}

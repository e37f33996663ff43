// Runs the program on drawn cases and on edited texts, beside a model that was written from the pages.
//
//   drawn PROGRAM cases SEED FIRST END STEP   the cases from FIRST to END, each STEP-th
//   drawn PROGRAM broken SEED END RULE        the cases up to END, with a rule of the model broken, until one tells
//   drawn PROGRAM edits NUMBER                all edits of a text
//   drawn PROGRAM show SEED NUMBER            puts the files of a case here, with what it must leave
//   drawn texts, drawn rules                  lists both, one a line
//
// It runs in an empty folder, and leaves it empty. A line says what is wrong of each case, and the last line how many passed
// and failed. A text with all its edits counts as one.
#include "draw_cases.h"
#include "edits.h"
#include "model.h"
#include "running.h"

static uint64_t passed, failed;

static std::string line_of(const std::vector<std::string> &words)
{
  std::string line = "cdb";
  for (const std::string &it : words) line += " '" + shown(it, 100) + "'";
  return line;
}

static bool holds(Runner &runner, const Case &it, const Ending &wanted, const std::string &name)
{
  std::string fault = fault_of(runner.run(it), wanted);
  if (!fault.empty()) printf("%s: %s: %s\n", name.c_str(), line_of(it.words).c_str(), fault.c_str());
  fflush(stdout);
  return fault.empty();
}

// A case by its number. One whose end the pages leave open is drawn again.
static Case numbered(uint64_t seed, uint64_t number, Ending &wanted)
{
  for (uint64_t again = 0;; again++) {
    Chance chance(seed, number + (again << 32));
    Case it = drawn_case(chance);
    if (has_too_many_slots(it)) continue;
    wanted = ending_of(it);
    if (wanted.is_known) return it;
  }
}

static bool holds_numbered(Runner &runner, uint64_t seed, uint64_t number)
{
  Ending wanted;
  Case it = numbered(seed, number, wanted);
  bool held = holds(runner, it, wanted, "seed " + std::to_string(seed) + ", case " + std::to_string(number));
  (held ? passed : failed)++;
  return held;
}

static void run_edits(Runner &runner, const Edited &text)
{
  uint64_t wrong = 0;
  for (uint64_t number = 0; number < edits_of(text.text); number++) {
    Case it = edited_case(text, number);
    wrong += !holds(runner, it, ending_of(it), "edit " + std::to_string(number) + " of \"" + shown(text.text) + "\"");
  }
  (wrong ? failed : passed)++;
}

static void show(uint64_t seed, uint64_t number)
{
  Ending wanted;
  Case it = numbered(seed, number, wanted);
  lay(".", it.files);
  lay(".", {{"standard input", {false, it.input}}, {"wanted output", {false, wanted.output}}, {"wanted errors", {false, wanted.errors}}});
  must(mkdir("wanted", 0777), "mkdir");
  lay("wanted", wanted.files);
  printf("%s: %s: status %d\n", it.kind.c_str(), line_of(it.words).c_str(), wanted.status);
}

static int list(const std::string &what)
{
  for (const Edited &it : EDITED)
    if (what == "texts") printf("%s: %s\n", it.letters.c_str(), shown(it.text).c_str());
  for (const std::string &it : BROKEN)
    if (what == "rules") printf("%s\n", it.c_str());
  return 0;
}

int main(int many, char **given)
{
  std::vector<std::string> words(given + 1, given + many);
  if (words.size() == 1) return list(words[0]);
  if (words.size() < 3) return 2;
  auto number = [&words](size_t n) { return strtoull(words.at(n).c_str(), nullptr, 10); };
  Runner runner(words[0]);
  if (words[1] == "show") return show(number(2), number(3)), 0;
  if (words[1] == "edits") run_edits(runner, EDITED.at(number(2)));
  if (words[1] == "cases")
    for (uint64_t n = number(3); n < number(4); n += number(5)) holds_numbered(runner, number(2), n);
  if (words[1] == "broken") {
    broken = words.at(4);
    for (uint64_t n = 0; n < number(3) && holds_numbered(runner, number(2), n); n++);
  }
  printf("%llu passed, %llu failed\n", (unsigned long long)passed, (unsigned long long)failed);
  return failed > 0;
}

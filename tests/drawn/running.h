// Runs the program on a case, and compares what it leaves with what it must leave.
#pragma once
#include <cerrno>
#include <csignal>
#include <cstdio>
#include <cstring>
#include <dirent.h>
#include <fcntl.h>
#include <spawn.h>
#include <sys/mman.h>
#include <sys/stat.h>
#include <sys/time.h>
#include <sys/wait.h>
#include <unistd.h>
#include "cases.h"
#include "shown.h"

// How long the program may take for a case, after which it hangs.
const int SECONDS = 120;
// A status that no program ends with: it hung.
const int HUNG = -1000;

// What the machine refuses to these tests themselves ends them.
inline int must(int number, const char *what)
{
  if (number >= 0) return number;
  perror(what);
  exit(3);
}

inline void write_all(int to, const Bytes &bytes)
{
  for (size_t at = 0; at < bytes.size();) at += must((int)write(to, bytes.data() + at, std::min<size_t>(bytes.size() - at, 1 << 20)), "write");
}

inline Bytes read_all(int from)
{
  struct stat file;
  must(fstat(from, &file), "fstat");
  Bytes bytes(file.st_size, 0);
  size_t at = 0;
  while (at < bytes.size()) {
    int some = must((int)pread(from, &bytes[at], std::min<size_t>(bytes.size() - at, 1 << 20), at), "pread");
    if (!some) break;
    at += some;
  }
  bytes.resize(at);
  return bytes;
}

// Makes files in a folder.
inline void lay(const std::string &folder, const Files &files)
{
  for (const auto &[name, file] : files) {
    std::string path = folder + "/" + name;
    if (file.is_folder) {
      must(mkdir(path.c_str(), 0777), "mkdir");
      continue;
    }
    int to = must(open(path.c_str(), O_WRONLY | O_CREAT | O_TRUNC, 0666), "open");
    write_all(to, file.bytes);
    close(to);
  }
}

// Takes all files out of the folder of the tests.
inline Files take_files()
{
  Files files;
  DIR *folder = opendir(".");
  if (!folder) must(-1, "opendir");
  while (dirent *it = readdir(folder)) {
    std::string name = it->d_name;
    if (name == "." || name == "..") continue;
    if (rmdir(name.c_str()) == 0) {
      files[name].is_folder = true;
      continue;
    }
    int from = must(open(name.c_str(), O_RDONLY | O_NOFOLLOW), "open");
    files[name].bytes = read_all(from);
    close(from);
    must(unlink(name.c_str()), "unlink");
  }
  closedir(folder);
  return files;
}

inline pid_t running;
inline volatile bool hung;
inline void stop(int)
{
  hung = true;
  if (running) kill(running, SIGKILL);
}

// The program, and the streams that it is given.
class Runner {
  std::string program;
  int input, output, errors, full, folder;
  int piped[2], closed[2];

  // An empty file.
  static void clear(int file)
  {
    must(ftruncate(file, 0), "ftruncate");
    must((int)lseek(file, 0, SEEK_SET), "lseek");
  }

  // Standard input. A pipe has all of it, since nobody writes while the program runs.
  int given(const Case &it)
  {
    if (it.input_is_folder) return folder;
    if (!it.input_is_pipe) {
      clear(input);
      write_all(input, it.input);
      must((int)lseek(input, 0, SEEK_SET), "lseek");
      return input;
    }
    must(pipe2(piped, O_CLOEXEC), "pipe2");
    if (it.input.size() > 60000) must(fcntl(piped[1], F_SETPIPE_SZ, 1 << 20), "fcntl");
    write_all(piped[1], it.input);
    close(piped[1]);
    return piped[0];
  }

  // Standard output.
  int taken(const Case &it)
  {
    if (it.output == Output::Kept) return output;
    if (it.output == Output::Full) return full;
    must(pipe2(closed, O_CLOEXEC), "pipe2");
    close(closed[0]);
    return closed[1];
  }

  int wait()
  {
    itimerval limit = {{0, 0}, {SECONDS, 0}}, none = {{0, 0}, {0, 0}};
    hung = false;
    setitimer(ITIMER_REAL, &limit, nullptr);
    int status;
    while (waitpid(running, &status, 0) < 0)
      if (errno != EINTR) must(-1, "waitpid");
    setitimer(ITIMER_REAL, &none, nullptr);
    if (hung) return HUNG;
    return WIFEXITED(status) ? WEXITSTATUS(status) : -WTERMSIG(status);
  }

public:
  explicit Runner(const std::string &program) : program(program)
  {
    input = must(memfd_create("input", MFD_CLOEXEC), "memfd_create");
    output = must(memfd_create("output", MFD_CLOEXEC), "memfd_create");
    errors = must(memfd_create("errors", MFD_CLOEXEC), "memfd_create");
    full = must(open("/dev/full", O_WRONLY | O_CLOEXEC), "/dev/full");
    folder = must(open("/", O_RDONLY | O_CLOEXEC), "/");
    struct sigaction act = {};
    act.sa_handler = stop;
    sigaction(SIGALRM, &act, nullptr);
  }

  Ending run(const Case &it)
  {
    piped[0] = closed[1] = -1;
    lay(".", it.files);
    clear(output);
    clear(errors);
    posix_spawn_file_actions_t streams;
    posix_spawn_file_actions_init(&streams);
    posix_spawn_file_actions_adddup2(&streams, given(it), 0);
    posix_spawn_file_actions_adddup2(&streams, taken(it), 1);
    posix_spawn_file_actions_adddup2(&streams, it.errors_are_full ? full : errors, 2);
    std::vector<char *> words = {(char *)"cdb"};
    for (const std::string &word : it.words) words.push_back((char *)word.c_str());
    words.push_back(nullptr);
    if (posix_spawn(&running, program.c_str(), &streams, nullptr, words.data(), environ)) must(-1, program.c_str());
    posix_spawn_file_actions_destroy(&streams);
    Ending end;
    end.status = wait();
    close(piped[0]);
    close(closed[1]);
    end.output = read_all(output);
    end.errors = read_all(errors);
    end.files = take_files();
    return end;
  }
};

// Where two differ.
inline std::string difference_of(const Bytes &came, const Bytes &wanted)
{
  size_t at = std::mismatch(came.begin(), came.begin() + std::min(came.size(), wanted.size()), wanted.begin()).first - came.begin();
  return std::to_string(came.size()) + " bytes, not " + std::to_string(wanted.size()) + ", which differ at " + std::to_string(at);
}

// What is wrong of how a case ended, or nothing.
inline std::string fault_of(Ending came, Ending wanted)
{
  std::string said;
  if (came.status == HUNG) said += "it hung; ";
  else if (came.status != wanted.status) said += "status " + std::to_string(came.status) + ", not " + std::to_string(wanted.status) + "; ";
  if (came.errors != wanted.errors) said += "errors \"" + shown(came.errors, 200) + "\", not \"" + shown(wanted.errors, 200) + "\"; ";
  if (came.output != wanted.output) said += "output of " + difference_of(came.output, wanted.output) + "; ";
  for (const std::string &name : wanted.open) {
    came.files.erase(name);
    wanted.files.erase(name);
  }
  for (const auto &[name, file] : wanted.files) {
    auto found = came.files.find(name);
    if (found == came.files.end()) said += "file " + shown(name) + " is gone; ";
    else if (!(found->second == file)) said += "file " + shown(name) + " of " + difference_of(found->second.bytes, file.bytes) + "; ";
  }
  for (const auto &[name, file] : came.files)
    if (!wanted.files.count(name)) said += "file " + shown(name) + " is new; ";
  return said;
}

// How fast LevelDB's log writer is, and the syncs that a flush of ours makes.
//
// leveldb_log FOLDER COUNT SIZE READS appends COUNT records of SIZE bytes to a log in the folder, each handed to the
// system by itself as LevelDB does. After every hundredth it syncs the log, writes a manifest beside the old one, syncs
// it, puts it in the old one's place, and syncs the folder. Then it reads SIZE bytes at READS places in no order and
// computes LevelDB's checksum of them, and reads all records in order with LevelDB's reader, which checks each, as many
// a time as fit into 32 KiB. It prints how often each was done, how long it took in the mean, and in the fastest
// hundred calls one after another.
//
// build: g++ -O2 -o leveldb_log leveldb_log.cc -lleveldb   (Debian: libleveldb-dev; its static library has the writer,
// the reader and the checksum)
#include <fcntl.h>
#include <unistd.h>

#include <algorithm>
#include <chrono>
#include <cstdint>
#include <cstdio>
#include <cstdlib>
#include <string>
#include <vector>

#include "leveldb/env.h"
#include "leveldb/slice.h"
#include "leveldb/status.h"

// As LevelDB 1.23 declares them in db/log_writer.h, db/log_reader.h and util/crc32c.h, which aren't among its public
// headers.
namespace leveldb {
namespace log {
class Writer {
 public:
  explicit Writer(WritableFile* dest);
  ~Writer();
  Status AddRecord(const Slice& slice);

 private:
  WritableFile* dest_;
  int block_offset_;
  uint32_t type_crc_[5];
};

class Reader {
 public:
  class Reporter;
  Reader(SequentialFile* file, Reporter* reporter, bool checksum, uint64_t initial_offset);
  ~Reader();
  bool ReadRecord(Slice* record, std::string* scratch);

 private:
  SequentialFile* const file_;
  Reporter* const reporter_;
  bool const checksum_;
  char* const backing_store_;
  Slice buffer_;
  bool eof_;
  uint64_t last_record_offset_;
  uint64_t end_of_buffer_offset_;
  uint64_t const initial_offset_;
  bool resyncing_;
};
}  // namespace log

namespace crc32c {
uint32_t Extend(uint32_t init_crc, const char* data, size_t n);
}  // namespace crc32c
}  // namespace leveldb

using Clock = std::chrono::steady_clock;

// How many calls one after another make a row.
static const uint64_t kRow = 100;

// How many bytes are read in order a time.
static const uint64_t kBlock = 32768;

struct Spent {
  uint64_t calls = 0;
  uint64_t nanos = 0;
  uint64_t row = 0;
  uint64_t fastest = UINT64_MAX;

  template <typename F>
  void time(F call) {
    auto start = Clock::now();
    call();
    uint64_t spent = std::chrono::duration_cast<std::chrono::nanoseconds>(Clock::now() - start).count();
    nanos += spent;
    row += spent;
    if (++calls % kRow == 0) {
      fastest = std::min(fastest, row);
      row = 0;
    }
  }

  std::string text() const {
    std::string text = std::to_string(calls) + " of " + std::to_string(calls ? nanos / calls : 0) + " ns";
    return calls < kRow ? text : text + " (fastest " + std::to_string(fastest / kRow) + ")";
  }
};

static void check(bool well, const char* what) {
  if (!well) {
    std::perror(what);
    std::exit(1);
  }
}

static void sync_folder(const std::string& folder) {
  int fd = ::open(folder.c_str(), O_RDONLY | O_DIRECTORY);
  check(fd >= 0 && ::fsync(fd) == 0 && ::close(fd) == 0, "folder");
}

// Puts a manifest in the place of the old one, as a flush does.
static void put_manifest(leveldb::Env* env, const std::string& folder, const std::string& text) {
  leveldb::WritableFile* file;
  check(env->NewWritableFile(folder + "/manifest.new", &file).ok(), "manifest");
  check(file->Append(text).ok() && file->Sync().ok() && file->Close().ok(), "manifest");
  delete file;
  check(env->RenameFile(folder + "/manifest.new", folder + "/manifest").ok(), "manifest");
  sync_folder(folder);
}

int main(int argc, char** argv) {
  check(argc == 5, "leveldb_log FOLDER COUNT SIZE READS");
  std::string folder = argv[1];
  uint64_t count = std::strtoull(argv[2], nullptr, 10);
  uint64_t size = std::strtoull(argv[3], nullptr, 10);
  uint64_t reads = std::strtoull(argv[4], nullptr, 10);
  leveldb::Env* env = leveldb::Env::Default();
  env->CreateDir(folder);
  std::string path = folder + "/log";
  std::string record(size, '\7');
  std::string manifest(1024, '\0');
  Spent appends, flushes, got, in_order;

  leveldb::WritableFile* file;
  check(env->NewWritableFile(path, &file).ok(), "log");
  sync_folder(folder);
  leveldb::log::Writer* writer = new leveldb::log::Writer(file);
  for (uint64_t number = 0; number < count; ++number) {
    appends.time([&] { check(writer->AddRecord(record).ok(), "append"); });
    if (number % 100 == 99) {
      flushes.time([&] {
        check(file->Sync().ok(), "sync");
        put_manifest(env, folder, manifest);
      });
    }
  }
  delete writer;
  check(file->Close().ok(), "close");
  delete file;

  int fd = ::open(path.c_str(), O_RDONLY);
  check(fd >= 0, "read");
  uint64_t state = 1;
  uint32_t checksums = 0;
  for (uint64_t number = 0; number < reads; ++number) {
    state = state * 6364136223846793005ull + 1442695040888963407ull;
    uint64_t at = (state >> 20) % count * size;
    got.time([&] {
      std::vector<char> bytes(size);
      check(::pread(fd, bytes.data(), size, at) == static_cast<ssize_t>(size), "read");
      checksums ^= leveldb::crc32c::Extend(0, bytes.data(), size);
    });
  }
  ::close(fd);

  leveldb::SequentialFile* source;
  check(env->NewSequentialFile(path, &source).ok(), "read");
  leveldb::log::Reader* reader = new leveldb::log::Reader(source, nullptr, true, 0);
  uint64_t each = std::max<uint64_t>(kBlock / size, 1), found = 0;
  leveldb::Slice bytes;
  std::string scratch;
  while (found < count) {
    in_order.time([&] {
      for (uint64_t number = 0; number < each && found < count; ++number, ++found) {
        check(reader->ReadRecord(&bytes, &scratch) && bytes.size() == size, "record");
      }
    });
  }
  delete reader;
  delete source;

  std::printf("leveldb: appends %s, flushes %s, reads %s, in order %s (checksums %08x)\n", appends.text().c_str(),
              flushes.text().c_str(), got.text().c_str(), in_order.text().c_str(), checksums);
  return 0;
}

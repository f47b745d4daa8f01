// Counts what the search of rdm_search sends and what OLA's sends, on the same line in memory, for sets of UIDs. `search sets` writes the
// sets, and `search` alone reads them.
//
// The line is that of crates/rdm_search/specs/Line.antt: nothing is heard of nobody, the answer of a single fixture, and of more than
// one something that decodes as no UID (noise), or the answer of one of them (one).

#include <cstdint>
#include <cstdio>
#include <iostream>
#include <map>
#include <set>
#include <sstream>
#include <string>
#include <vector>

#include <ola/Callback.h>
#include <ola/rdm/DiscoveryAgent.h>
#include <ola/rdm/UID.h>
#include <ola/rdm/UIDSet.h>

#include "felosumay.h"

using ola::rdm::DiscoveryAgent;
using ola::rdm::DiscoveryTargetInterface;
using ola::rdm::UID;
using ola::rdm::UIDSet;

namespace {

// The 24 bytes by which a fixture answers DISC_UNIQUE_BRANCH (E1.20 section 7.5).
std::vector<uint8_t> BranchAnswer(uint64_t uid) {
  std::vector<uint8_t> bytes(7, 0xFE);
  bytes.push_back(0xAA);
  uint16_t sum = 0;
  for (int place = 5; place >= 0; place--) {
    const uint8_t byte = static_cast<uint8_t>(uid >> (8 * place));
    for (uint8_t mask : {0xAA, 0x55}) {
      bytes.push_back(static_cast<uint8_t>(byte | mask));
      sum = static_cast<uint16_t>(sum + bytes.back());
    }
  }
  for (int place = 1; place >= 0; place--) {
    const uint8_t byte = static_cast<uint8_t>(sum >> (8 * place));
    for (uint8_t mask : {0xAA, 0x55}) bytes.push_back(static_cast<uint8_t>(byte | mask));
  }
  return bytes;
}

uint64_t Number(const UID &uid) {
  return (static_cast<uint64_t>(uid.ManufacturerId()) << 32) | uid.DeviceId();
}

// The number that six bytes are.
uint64_t Number(const uint8_t *bytes) {
  uint64_t number = 0;
  for (int place = 0; place < 6; place++) number = number << 8 | bytes[place];
  return number;
}

// The fixtures with their mute flags, and how many requests they heard.
class Line {
 public:
  Line(const std::vector<uint64_t> &uids, bool noise) : noise_(noise) {
    for (uint64_t uid : uids) muted_[uid] = false;
  }

  bool Mute(uint64_t uid) {
    sent_++;
    auto fixture = muted_.find(uid);
    if (fixture == muted_.end()) return false;
    fixture->second = true;
    return true;
  }

  void UnMuteAll() {
    sent_++;
    for (auto &fixture : muted_) fixture.second = false;
  }

  std::vector<uint8_t> Branch(uint64_t lower, uint64_t upper) {
    sent_++;
    std::vector<uint8_t> bytes;
    int callers = 0;
    for (auto fixture = muted_.lower_bound(lower); fixture != muted_.end() && fixture->first <= upper; ++fixture) {
      if (fixture->second) continue;
      callers++;
      if (callers == 1) bytes = BranchAnswer(fixture->first);
      if (callers == 2) break;
    }
    if (callers == 2 && noise_) bytes = {0xFE, 0x55};
    return bytes;
  }

  unsigned sent() const { return sent_; }

 private:
  const bool noise_;
  std::map<uint64_t, bool> muted_;
  unsigned sent_ = 0;
};

// The line as OLA's search asks it. It runs each callback later, in Run, as a port would.
class Target : public DiscoveryTargetInterface {
 public:
  explicit Target(Line *line) : line_(line) {}

  void MuteDevice(const UID &target, MuteDeviceCallback *complete) override {
    answered_ = line_->Mute(Number(target));
    mute_ = complete;
  }

  void UnMuteAll(UnMuteDeviceCallback *complete) override {
    line_->UnMuteAll();
    un_mute_ = complete;
  }

  void Branch(const UID &lower, const UID &upper, BranchCallback *callback) override {
    bytes_ = line_->Branch(Number(lower), Number(upper));
    branch_ = callback;
  }

  // Hands on what was heard, until nothing more is asked.
  void Run() {
    while (un_mute_ || mute_ || branch_) {
      if (auto callback = un_mute_) {
        un_mute_ = nullptr;
        callback->Run();
      } else if (auto callback = mute_) {
        mute_ = nullptr;
        callback->Run(answered_);
      } else if (auto callback = branch_) {
        branch_ = nullptr;
        const std::vector<uint8_t> bytes = bytes_;
        callback->Run(bytes.empty() ? nullptr : bytes.data(), static_cast<unsigned int>(bytes.size()));
      }
    }
  }

 private:
  Line *const line_;
  std::vector<uint8_t> bytes_;
  bool answered_ = false;
  UnMuteDeviceCallback *un_mute_ = nullptr;
  MuteDeviceCallback *mute_ = nullptr;
  BranchCallback *branch_ = nullptr;
};

// What a search came to.
struct Outcome {
  unsigned sent = 0;
  unsigned found = 0;
  bool done = false;
};

void Complete(Outcome *outcome, bool ok, const UIDSet &found) {
  outcome->done = ok;
  outcome->found = found.Size();
}

// OLA's search.
Outcome Theirs(const std::vector<uint64_t> &uids, bool noise) {
  Line line(uids, noise);
  Target target(&line);
  Outcome outcome;
  DiscoveryAgent agent(&target);
  agent.StartFullDiscovery(ola::NewSingleCallback(Complete, &outcome));
  target.Run();
  outcome.sent = line.sent();
  return outcome;
}

// The answer of a fixture to the request that mutes it (E1.20 sections 6.2 and 7.6): its control field is 0.
std::vector<uint8_t> MuteAnswer(const uint8_t *request) {
  std::vector<uint8_t> bytes = {0xCC, 0x01, 26};
  bytes.insert(bytes.end(), request + 9, request + 15);
  bytes.insert(bytes.end(), request + 3, request + 9);
  const uint8_t rest[] = {request[15], 0, 0, 0, 0, 0x11, 0x00, 0x02, 2, 0, 0};
  bytes.insert(bytes.end(), rest, rest + sizeof rest);
  uint16_t sum = 0;
  for (uint8_t byte : bytes) sum = static_cast<uint16_t>(sum + byte);
  bytes.push_back(static_cast<uint8_t>(sum >> 8));
  bytes.push_back(static_cast<uint8_t>(sum));
  return bytes;
}

// What is heard after a request of a search.
std::vector<uint8_t> Heard(Line *line, const uint8_t *request) {
  switch (request[21] << 8 | request[22]) {
    case 0x0001:
      return line->Branch(Number(request + 24), Number(request + 30));
    case 0x0002:
      return line->Mute(Number(request + 3)) ? MuteAnswer(request) : std::vector<uint8_t>();
    default:
      line->UnMuteAll();
      return {};
  }
}

// The search of rdm_search, as a program in C has it, within its bound.
Outcome Ours(const std::vector<uint64_t> &uids, bool noise) {
  Line line(uids, noise);
  Outcome outcome;
  felosumay_search search = {0};
  if (felosumay_search_new(&search, 0x7FF0, 0xC0, static_cast<uint32_t>(74 * uids.size() + 2)) != FELOSUMAY_DONE) return outcome;
  uint8_t request[FELOSUMAY_FRAME_BYTES];
  size_t count = 0;
  felosumay_result told = felosumay_search_next(&search, request, &count);
  while (told == FELOSUMAY_DONE) {
    // The header wants a pointer even if nothing was heard.
    std::vector<uint8_t> bytes = Heard(&line, request);
    bytes.reserve(1);
    told = felosumay_search_hear(&search, bytes.data(), bytes.size());
    if (told == FELOSUMAY_DONE) told = felosumay_search_next(&search, request, &count);
  }
  outcome.done = told == FELOSUMAY_NO_MORE;
  felosumay_search_count(&search, &count);
  outcome.found = static_cast<unsigned>(count);
  outcome.sent = line.sent();
  felosumay_search_free(&search);
  return outcome;
}

// Numbers that look like chance, the same each time: the upper half of a linear congruence modulo 2^64.
uint32_t Draw() {
  static uint64_t state = 1;
  state = state * 6364136223846793005u + 1442695040888963407u;
  return static_cast<uint32_t>(state >> 32);
}

// A UID of each kind: anywhere, beside the one before, or of one manufacturer.
uint64_t Pick(const std::string &kind, unsigned place) {
  if (kind == "random") return static_cast<uint64_t>(Draw() % 0x7FFF + 1) << 32 | Draw() % 0xFFFFFFFF;
  if (kind == "adjacent") return 0x7FF000001000u + place;
  return 0x7FF000000000u | Draw() % 0xFFFFFFFF;
}

// Writes each set twice: where more than one fixture answers there is noise, or one of them is heard.
void WriteSets() {
  for (unsigned count : {1, 10, 100, 500}) {
    for (const std::string kind : {"random", "adjacent", "maker"}) {
      std::set<uint64_t> uids;
      for (unsigned place = 0; uids.size() < count; place++) uids.insert(Pick(kind, place));
      for (const char *heard : {"noise", "one"}) {
        std::printf("%s", heard);
        for (uint64_t uid : uids) std::printf(" %012llX", static_cast<unsigned long long>(uid));
        std::printf("\n");
      }
    }
  }
}

}  // namespace

// A line of standard input says one set: noise or one, and the UIDs as hexadecimal numbers. A line of standard output says what is heard,
// how many fixtures there are and the bound of our search for them, and then of each search, ours and OLA's, how many transactions it took
// and whether it ended well with as many fixtures found as there are.
int main(int count, char **words) {
  if (count == 2 && std::string(words[1]) == "sets") {
    WriteSets();
    return 0;
  }
  for (std::string text; std::getline(std::cin, text);) {
    std::istringstream row(text);
    std::string heard;
    row >> heard >> std::hex;
    std::vector<uint64_t> uids;
    for (uint64_t uid; row >> uid;) uids.push_back(uid);
    std::printf("%s %zu %zu", heard.c_str(), uids.size(), 74 * uids.size() + 2);
    for (const Outcome &outcome : {Ours(uids, heard == "noise"), Theirs(uids, heard == "noise")})
      std::printf(" %u %s", outcome.sent, outcome.done && outcome.found == uids.size() ? "ok" : "wrong");
    std::printf("\n");
  }
}

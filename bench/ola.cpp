// What a request costs OLA's MovingLightResponder: from its bytes to the bytes of the reply, which are summed as
// bench/driver.c sums them.
//
//   ola FRAMES ROW ROUNDS    hears the frames of a row of bench/frames.txt so often, and prints nanoseconds of a frame, how many frames the
//                            row has, and what their bytes come to
//
// The rows are those before the one whose frames are a *, and that one, which is all of them.
#include <ola/Callback.h>
#include <ola/io/ByteString.h>
#include <ola/rdm/MovingLightResponder.h>
#include <ola/rdm/RDMCommand.h>
#include <ola/rdm/RDMCommandSerializer.h>
#include <ola/rdm/RDMReply.h>
#include <ola/rdm/UID.h>

#include <cstdio>
#include <cstdlib>
#include <ctime>
#include <fstream>
#include <string>
#include <vector>

namespace {

typedef std::vector<uint8_t> Bytes;

unsigned long sum = 0;
unsigned long replies = 0;

void TakeReply(ola::rdm::RDMReply *reply) {
  if (!reply->Response()) {
    return;
  }
  ola::io::ByteString packed;
  ola::rdm::RDMCommandSerializer::PackWithStartCode(*reply->Response(), &packed);
  for (ola::io::ByteString::const_iterator byte = packed.begin(); byte != packed.end(); ++byte) {
    sum += *byte;
  }
  replies++;
}

// The bytes of a frame: hexadecimal digits, and a + for the checksum.
Bytes Frame(const std::string &text) {
  Bytes bytes;
  std::string digits;
  for (char c : text) {
    if (c == '+') {
      unsigned int checksum = 0;
      for (uint8_t byte : bytes) checksum += byte;
      bytes.push_back(checksum >> 8 & 0xFF);
      bytes.push_back(checksum & 0xFF);
    } else if (c != ' ') {
      digits += c;
      if (digits.size() == 2) {
        bytes.push_back(strtol(digits.c_str(), NULL, 16));
        digits.clear();
      }
    }
  }
  return bytes;
}

// Nanoseconds of this process, as bench/driver.c takes them.
double Now() {
  timespec time;
  clock_gettime(CLOCK_PROCESS_CPUTIME_ID, &time);
  return time.tv_sec * 1e9 + time.tv_nsec;
}

}  // namespace

int main(int argc, char **argv) {
  if (argc != 4) {
    fputs("usage: ola FRAMES ROW ROUNDS\n", stderr);
    return 2;
  }
  std::ifstream file(argv[1]);
  const int row = atoi(argv[2]);
  const long rounds = atol(argv[3]);
  std::vector<Bytes> frames;
  std::string line;
  for (int i = 0; i <= row && std::getline(file, line);) {
    if (line.empty() || line[0] == '#') continue;
    const std::string last = line.substr(line.rfind('|') + 1);
    if (last.find('*') == std::string::npos) {
      if (i == row) frames.clear();
      frames.push_back(Frame(last));
    }
    i++;
  }
  ola::rdm::MovingLightResponder responder(ola::rdm::UID(0x7FF0, 1));
  const double start = Now();
  for (long i = 0; i < rounds; i++) {
    for (const Bytes &frame : frames) {
      // OLA reads a frame without its START code.
      ola::rdm::RDMRequest *request = ola::rdm::RDMRequest::InflateFromData(frame.data() + 1, frame.size() - 1);
      if (!request) {
        fprintf(stderr, "row %d: not a request\n", row);
        return 1;
      }
      responder.SendRDMRequest(request, ola::NewSingleCallback(TakeReply));
    }
  }
  const double time = Now() - start;
  if (replies != rounds * frames.size()) {
    fprintf(stderr, "row %d: %lu replies\n", row, replies);
    return 1;
  }
  printf("%.1f\t%zu\t%lu\n", time / (rounds * frames.size()), frames.size(), sum);
  return 0;
}

// OLA's own responders behind an interface that speaks the protocol of the ENTTEC DMX USB Pro, on standard input and output:
// docs/WIDGET.md has the protocol. It ends when standard input does. It has none of our code, and none of OLA's but its library.
//
// What the responders leave to OLA's ports is done here: the three discovery commands (E1.20 sections 7.5 and 7.6).

#include <unistd.h>

#include <cstdint>
#include <cstdio>
#include <map>
#include <memory>
#include <string>
#include <vector>

#include <ola/Callback.h>
#include <ola/Logging.h>
#include <ola/io/ByteString.h>
#include <ola/rdm/AckTimerResponder.h>
#include <ola/rdm/AdvancedDimmerResponder.h>
#include <ola/rdm/DimmerResponder.h>
#include <ola/rdm/DummyResponder.h>
#include <ola/rdm/MovingLightResponder.h>
#include <ola/rdm/NetworkResponder.h>
#include <ola/rdm/RDMCommand.h>
#include <ola/rdm/RDMCommandSerializer.h>
#include <ola/rdm/RDMControllerInterface.h>
#include <ola/rdm/RDMReply.h>
#include <ola/rdm/SensorResponder.h>
#include <ola/rdm/UID.h>

using ola::io::ByteString;
using ola::rdm::RDMControllerInterface;
using ola::rdm::RDMReply;
using ola::rdm::RDMRequest;
using ola::rdm::UID;

namespace {

typedef std::vector<uint8_t> Bytes;

const uint8_t kFrameStart = 0x7E, kFrameEnd = 0xE7;
const size_t kMostBody = 600;
const uint8_t kParameters = 3, kFromLine = 5, kRequest = 7, kSerialNumber = 10, kDiscovery = 11, kTimeout = 12;
const uint16_t kUniqueBranch = 1, kMute = 2, kUnMute = 3;
const uint16_t kMaker = 0x7A70;

uint64_t Number(const UID &uid) { return static_cast<uint64_t>(uid.ManufacturerId()) << 32 | uid.DeviceId(); }

// The number that six bytes are.
uint64_t Number(const uint8_t *bytes) {
  uint64_t number = 0;
  for (int place = 0; place < 6; place++) number = number << 8 | bytes[place];
  return number;
}

// The 24 bytes by which a device answers DISC_UNIQUE_BRANCH (E1.20 section 7.5).
Bytes BranchAnswer(const UID &uid) {
  Bytes bytes(7, 0xFE);
  bytes.push_back(0xAA);
  uint16_t sum = 0;
  auto put = [&bytes](uint8_t byte) {
    bytes.push_back(static_cast<uint8_t>(byte | 0xAA));
    bytes.push_back(static_cast<uint8_t>(byte | 0x55));
  };
  for (int place = 5; place >= 0; place--) put(static_cast<uint8_t>(Number(uid) >> (8 * place)));
  for (size_t place = 8; place < bytes.size(); place++) sum = static_cast<uint16_t>(sum + bytes[place]);
  put(static_cast<uint8_t>(sum >> 8));
  put(static_cast<uint8_t>(sum));
  return bytes;
}

// One responder, with the mute flag that OLA's ports keep for it.
class Device {
 public:
  Device(const UID &uid, RDMControllerInterface *responder, bool has_sub_devices)
      : uid_(uid), responder_(responder), has_sub_devices_(has_sub_devices) {}

  const UID &uid() const { return uid_; }

  // The reply to a GET or SET, or no bytes if there is none. A request is answered at once, by the callback.
  Bytes Ask(const RDMRequest &request) {
    reply_.clear();
    responder_->SendRDMRequest(request.Duplicate(), ola::NewSingleCallback(this, &Device::Hear));
    return request.DestinationUID().IsBroadcast() ? Bytes() : reply_;
  }

  // The reply to a mute or an un-mute: its control field says whether there are sub-devices (table 7-3).
  Bytes Mute(const RDMRequest &request, bool muted) {
    muted_ = muted;
    if (request.DestinationUID().IsBroadcast()) return Bytes();
    const uint8_t control[2] = {0, static_cast<uint8_t>(has_sub_devices_ ? 2 : 0)};
    ola::rdm::RDMDiscoveryResponse response(uid_, request.SourceUID(), request.TransactionNumber(), ola::rdm::RDM_ACK, 0, 0,
                                            request.ParamId(), control, sizeof(control));
    return Packed(response);
  }

  bool Answers(uint64_t lower, uint64_t upper) const { return !muted_ && lower <= Number(uid_) && Number(uid_) <= upper; }

 private:
  void Hear(RDMReply *reply) {
    if (reply->Response() != NULL) reply_ = Packed(*reply->Response());
  }

  static Bytes Packed(const ola::rdm::RDMCommand &response) {
    ByteString bytes;
    if (!ola::rdm::RDMCommandSerializer::PackWithStartCode(response, &bytes)) return Bytes();
    return Bytes(bytes.begin(), bytes.end());
  }

  const UID uid_;
  std::unique_ptr<RDMControllerInterface> responder_;
  const bool has_sub_devices_;
  bool muted_ = false;
  Bytes reply_;
};

// The devices on the line.
class Line {
 public:
  Line() {
    Join(new ola::rdm::DimmerResponder(Next(), 4), true);
    Join(new ola::rdm::MovingLightResponder(Next()));
    Join(new ola::rdm::SensorResponder(Next()));
    Join(new ola::rdm::AckTimerResponder(Next()));
    Join(new ola::rdm::AdvancedDimmerResponder(Next()));
    Join(new ola::rdm::NetworkResponder(Next()));
    Join(new ola::rdm::DummyResponder(Next()));
  }

  // The bytes on the line after those of a request.
  Bytes Ask(const Bytes &bytes) {
    if (bytes.empty() || bytes[0] != 0xCC) return Bytes();
    const std::unique_ptr<RDMRequest> request(RDMRequest::InflateFromData(bytes.data() + 1, static_cast<unsigned>(bytes.size() - 1)));
    if (!request) return Bytes();
    if (request->CommandClass() == ola::rdm::RDMCommand::DISCOVER_COMMAND) return Discover(*request);
    Bytes heard;
    for (const auto &device : devices_) {
      if (!request->DestinationUID().DirectedToUID(device->uid())) continue;
      const Bytes reply = device->Ask(*request);
      if (!reply.empty()) heard = reply;
    }
    return heard;
  }

 private:
  UID Next() const { return UID(kMaker, static_cast<uint32_t>(0xFFFFFF00 + devices_.size())); }

  void Join(RDMControllerInterface *responder, bool has_sub_devices = false) {
    devices_.emplace_back(new Device(Next(), responder, has_sub_devices));
  }

  Bytes Discover(const RDMRequest &request) {
    if (request.ParamId() == kUniqueBranch) return Branch(request);
    Bytes heard;
    if ((request.ParamId() != kMute && request.ParamId() != kUnMute) || request.ParamDataSize() != 0) return heard;
    for (const auto &device : devices_) {
      if (!request.DestinationUID().DirectedToUID(device->uid())) continue;
      const Bytes reply = device->Mute(request, request.ParamId() == kMute);
      if (!reply.empty()) heard = reply;
    }
    return heard;
  }

  // If several devices answer at once, each byte has the bits that any answer has set there.
  Bytes Branch(const RDMRequest &request) {
    Bytes heard;
    if (request.ParamDataSize() != 12) return heard;
    const uint64_t lower = Number(request.ParamData()), upper = Number(request.ParamData() + 6);
    for (const auto &device : devices_) {
      if (!device->Answers(lower, upper)) continue;
      const Bytes answer = BranchAnswer(device->uid());
      heard.resize(answer.size());
      for (size_t place = 0; place < answer.size(); place++) heard[place] = static_cast<uint8_t>(heard[place] | answer[place]);
    }
    return heard;
  }

  std::vector<std::unique_ptr<Device>> devices_;
};

// Writes all of these bytes, or ends the program.
void Write(const Bytes &bytes) {
  size_t done = 0;
  while (done < bytes.size()) {
    const ssize_t count = write(STDOUT_FILENO, bytes.data() + done, bytes.size() - done);
    if (count <= 0) _exit(1);
    done += static_cast<size_t>(count);
  }
}

void Put(Bytes *out, uint8_t label, const Bytes &body) {
  const uint8_t head[] = {kFrameStart, label, static_cast<uint8_t>(body.size()), static_cast<uint8_t>(body.size() >> 8)};
  out->insert(out->end(), head, head + sizeof(head));
  out->insert(out->end(), body.begin(), body.end());
  out->push_back(kFrameEnd);
}

// What the interface writes for a message.
Bytes Answer(Line *line, uint8_t label, const Bytes &body) {
  Bytes out;
  if (label == kParameters) Put(&out, kParameters, {4, 2, 9, 1, 40});
  if (label == kSerialNumber) Put(&out, kSerialNumber, {2, 0, 0, 0});
  if (label != kRequest && label != kDiscovery) return out;
  Bytes heard = line->Ask(body);
  if (!heard.empty()) {
    // A status byte: nothing went wrong.
    heard.insert(heard.begin(), 0);
    Put(&out, kFromLine, heard);
  }
  if (label == kDiscovery || heard.empty()) Put(&out, kTimeout, Bytes());
  return out;
}

// Answers the messages at the front of these bytes, and takes them away. Bytes with which none begins are passed over.
void AnswerAll(Line *line, Bytes *held) {
  size_t done = 0;
  while (held->size() - done >= 5) {
    const uint8_t *front = held->data() + done;
    const size_t length = static_cast<size_t>(front[2] | front[3] << 8);
    if (front[0] != kFrameStart || length > kMostBody) {
      done++;
      continue;
    }
    if (held->size() - done < length + 5) break;
    if (front[4 + length] != kFrameEnd) {
      done++;
      continue;
    }
    Write(Answer(line, front[1], Bytes(front + 4, front + 4 + length)));
    done += length + 5;
  }
  held->erase(held->begin(), held->begin() + static_cast<ptrdiff_t>(done));
}

}  // namespace

int main() {
  ola::InitLogging(ola::OLA_LOG_NONE, ola::OLA_LOG_STDERR);
  Line line;
  Bytes held, piece(1024);
  for (;;) {
    const ssize_t count = read(STDIN_FILENO, piece.data(), piece.size());
    if (count <= 0) return count == 0 ? 0 : 1;
    held.insert(held.end(), piece.begin(), piece.begin() + count);
    AnswerAll(&line, &held);
  }
}

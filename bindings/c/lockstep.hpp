/* The game of lockstep for engines in C++17: lockstep.h with objects that free themselves, vectors,
 * and views of bytes.
 *
 * What each call does, its codes and its units are said in lockstep.h; a method has the name of its
 * call. It returns the call's code: where that is LOCKSTEP_OK, what was read has taken the place of
 * what was there, else it is not to be used. Nothing is thrown but by Grid::at off the map, and
 * what a vector or a string throws where memory ends; then no object has changed. A moved object
 * leaves an empty one behind, which `create` makes anew, and to which all else answers
 * LOCKSTEP_WRONG_OBJECT. */
#ifndef LOCKSTEP_HPP
#define LOCKSTEP_HPP

#include "lockstep.h"

#include <cstddef>
#include <string>
#include <string_view>
#include <utility>
#include <vector>

namespace lockstep {

/* Bytes of the caller's, which are not kept. */
class Bytes {
public:
  Bytes(const uint8_t *data, size_t size) noexcept
      : data_(size ? data : LOCKSTEP_NIL(const uint8_t)), size_(size) {}
  Bytes(std::nullptr_t, size_t) = delete; /* {0, 1} are no bytes */
  Bytes(const std::vector<uint8_t> &it) noexcept : Bytes(it.data(), it.size()) {}
  Bytes(std::string_view it) noexcept
      : Bytes(reinterpret_cast<const uint8_t *>(it.data()), it.size()) {}
  Bytes(const lockstep_packet &it) noexcept : Bytes(it.bytes, it.len) {}
  Bytes(const lockstep_play &it) noexcept : Bytes(it.bytes, it.len) {}

  const uint8_t *data() const noexcept { return data_; }
  size_t size() const noexcept { return size_; }

private:
  const uint8_t *data_;
  size_t size_;
};

/* The orders of one client for one frame. Each method appends one; false: there are 16 already. */
class Play : public lockstep_play {
public:
  Play() noexcept : lockstep_play(LOCKSTEP_PLAY) {}

  uint32_t count() const noexcept { return bytes[1]; }
  void clear() noexcept { *this = Play(); }

  bool move(uint32_t actor, uint8_t x, uint8_t y, bool queued = false) noexcept {
    return lockstep_move(this, actor, x, y, queued);
  }
  bool attack(uint32_t actor, uint32_t target, bool queued = false) noexcept {
    return lockstep_attack(this, actor, target, queued);
  }
  bool harvest(uint32_t actor, uint8_t x, uint8_t y, bool queued = false) noexcept {
    return lockstep_harvest(this, actor, x, y, queued);
  }
  bool stop(uint32_t actor) noexcept { return lockstep_stop(this, actor); }
  bool produce(uint32_t actor, uint16_t kind) noexcept {
    return lockstep_produce(this, actor, kind);
  }
  bool cancel(uint32_t actor) noexcept { return lockstep_cancel(this, actor); }
  bool donate(uint8_t client, uint32_t amount) noexcept {
    return lockstep_donate(this, client, amount);
  }
  bool pace(uint8_t turns) noexcept { return lockstep_pace(this, turns); }
};

/* The frame of all clients: add an entry of each, by rising number. */
class Frame {
public:
  void clear() noexcept { bytes_.clear(); }
  void add(const lockstep_play &play) {
    bytes_.insert(bytes_.end(), play.bytes, play.bytes + play.len);
  }
  void add_departed() { bytes_.push_back(0); }
  operator Bytes() const noexcept { return Bytes(bytes_); }

private:
  std::vector<uint8_t> bytes_;
};

/* A byte for each cell, row by row. */
struct Grid {
  uint32_t width = 0;
  std::vector<uint8_t> cells;

  uint8_t at(uint32_t x, uint32_t y) const {
    return cells.at(x < width ? size_t(y) * width + x : cells.size());
  }
};

/* A way: what it costs, and its cells from the first to the last. */
struct Route {
  uint32_t cost = 0;
  std::vector<lockstep_cell> cells;
};

/* What the library holds, freed in the end. */
class Object {
public:
  Object() noexcept = default;
  Object(Object &&other) noexcept
      : held_(std::exchange(other.held_, lockstep_object LOCKSTEP_EMPTY)) {}
  Object &operator=(Object &&other) noexcept {
    if (this != &other) {
      close();
      held_ = std::exchange(other.held_, lockstep_object LOCKSTEP_EMPTY);
    }
    return *this;
  }
  Object(const Object &) = delete;
  Object &operator=(const Object &) = delete;
  ~Object() { close(); }

  /* Frees what it holds; it is empty afterwards. */
  void close() noexcept { lockstep_free(&held_); }

  /* For the calls of lockstep.h. */
  lockstep_object *get() noexcept { return &held_; }

protected:
  /* Makes room until a call has what it needs: `call` takes places, their number, and `needed`. */
  template <typename List, typename Call> static uint32_t fill(List &out, Call call) {
    using Element = typename List::value_type;
    size_t needed = 0;
    uint32_t code;
    while ((code = call(out.empty() ? LOCKSTEP_NIL(Element) : out.data(), out.size(), &needed)) ==
           LOCKSTEP_NO_ROOM)
      out.resize(needed);
    if (code == LOCKSTEP_OK) out.resize(needed);
    return code;
  }

private:
  lockstep_object held_ = LOCKSTEP_EMPTY;
};

class Setup : public Object {
public:
  [[nodiscard]] uint32_t create() noexcept { return lockstep_setup_create(get()); }
  [[nodiscard]] uint32_t add_rules(Bytes text) noexcept {
    return lockstep_setup_add(get(), LOCKSTEP_RULES, text.data(), text.size());
  }
  [[nodiscard]] uint32_t add_map(Bytes text) noexcept {
    return lockstep_setup_add(get(), LOCKSTEP_MAP, text.data(), text.size());
  }
  [[nodiscard]] uint32_t read(lockstep_fault &at) noexcept {
    return lockstep_setup_read(get(), &at);
  }
  /* Makes an empty setup of the same texts: a group of its own. */
  [[nodiscard]] uint32_t share(Setup &copy) noexcept {
    return lockstep_setup_share(copy.get(), get());
  }

  [[nodiscard]] uint32_t kind(uint32_t kind, lockstep_kind &out) noexcept {
    return lockstep_setup_kind(get(), kind, &out);
  }
  [[nodiscard]] uint32_t kind_name(uint32_t kind, std::string &out) {
    std::vector<uint8_t> name;
    uint32_t code = fill(name, [&](uint8_t *at, size_t places, size_t *needed) {
      return lockstep_setup_kind_name(get(), kind, at, places, needed);
    });
    if (code == LOCKSTEP_OK) out.assign(name.begin(), name.end());
    return code;
  }
  [[nodiscard]] uint32_t terrain(Grid &out) {
    return fill(out.cells, [&](uint8_t *at, size_t places, size_t *needed) {
      return lockstep_setup_terrain(get(), &out.width, at, places, needed);
    });
  }

  [[nodiscard]] uint32_t hello(lockstep_packet &out) noexcept {
    return lockstep_hello(get(), &out);
  }
  [[nodiscard]] uint32_t greeted(Bytes packet, uint32_t &told) noexcept {
    return lockstep_greeted(get(), packet.data(), packet.size(), &told);
  }
};

/* What has a world. */
class Game : public Object {
public:
  [[nodiscard]] uint32_t read_head(lockstep_head &out) noexcept {
    return lockstep_read_head(get(), &out);
  }
  [[nodiscard]] uint32_t read_actors(std::vector<lockstep_actor> &out) {
    return fill(out, [&](lockstep_actor *at, size_t places, size_t *needed) {
      return lockstep_read_actors(get(), at, places, needed);
    });
  }
  [[nodiscard]] uint32_t read_items(uint32_t id, std::vector<lockstep_item> &out) {
    return fill(out, [&](lockstep_item *at, size_t places, size_t *needed) {
      return lockstep_read_items(get(), id, at, places, needed);
    });
  }
  [[nodiscard]] uint32_t read_ore(std::vector<uint8_t> &out) {
    return fill(out, [&](uint8_t *at, size_t places, size_t *needed) {
      return lockstep_read_ore(get(), at, places, needed);
    });
  }
  [[nodiscard]] uint32_t seen(uint32_t client, Grid &out) {
    return fill(out.cells, [&](uint8_t *at, size_t places, size_t *needed) {
      return lockstep_seen(get(), client, &out.width, at, places, needed);
    });
  }
  [[nodiscard]] uint32_t find_route(uint32_t kind, lockstep_cell from, lockstep_cell to,
                                    Route &out) {
    lockstep_route route = {0, 0};
    uint32_t code = fill(out.cells, [&](lockstep_cell *at, size_t places, size_t *needed) {
      uint32_t found =
          lockstep_find_route(get(), kind, from.x, from.y, to.x, to.y, at, places, &route);
      *needed = route.count;
      return found;
    });
    if (code == LOCKSTEP_OK) out.cost = route.cost;
    return code;
  }
  [[nodiscard]] uint32_t bot(uint32_t client, lockstep_play &out) noexcept {
    return lockstep_bot(get(), client, &out);
  }
};

class World : public Game {
public:
  [[nodiscard]] uint32_t create(Setup &setup, uint32_t seed, uint32_t clients) noexcept {
    return lockstep_world_create(get(), setup.get(), seed, clients);
  }
  [[nodiscard]] uint32_t step(Bytes frame) noexcept {
    return lockstep_world_step(get(), frame.data(), frame.size());
  }
};

class Peer : public Game {
public:
  [[nodiscard]] uint32_t create(Setup &setup, const lockstep_terms &terms) noexcept {
    return lockstep_peer_create(get(), setup.get(), &terms);
  }
  [[nodiscard]] uint32_t deliver(Bytes packet, uint32_t &told) noexcept {
    return lockstep_peer_deliver(get(), packet.data(), packet.size(), &told);
  }
  [[nodiscard]] uint32_t tick(uint32_t &told) noexcept { return lockstep_peer_tick(get(), &told); }
  [[nodiscard]] uint32_t seal(Bytes play, lockstep_packet &out) noexcept {
    return lockstep_peer_seal(get(), play.data(), play.size(), &out);
  }
  [[nodiscard]] uint32_t report(lockstep_packet &out) noexcept {
    return lockstep_peer_report(get(), &out);
  }
};

class Server : public Game {
public:
  [[nodiscard]] uint32_t create(Setup &setup, uint32_t clients, uint32_t seed) noexcept {
    return lockstep_server_create(get(), setup.get(), clients, seed);
  }
  [[nodiscard]] uint32_t up(uint32_t client, Bytes packet, uint32_t &told) noexcept {
    return lockstep_server_up(get(), client, packet.data(), packet.size(), &told);
  }
  [[nodiscard]] uint32_t drop(uint32_t client, uint32_t &told) noexcept {
    return lockstep_server_drop(get(), client, &told);
  }
  [[nodiscard]] uint32_t entry(uint32_t client, uint32_t frame, lockstep_packet &out) noexcept {
    return lockstep_server_entry(get(), client, frame, &out);
  }
  [[nodiscard]] uint32_t tick(uint32_t &told) noexcept {
    return lockstep_server_tick(get(), &told);
  }
  [[nodiscard]] uint32_t alarm(uint32_t client, lockstep_alarm &out) noexcept {
    return lockstep_server_alarm(get(), client, &out);
  }
};

/* The server's first packet to a client, and what the client reads of it. */
[[nodiscard]] inline uint32_t welcome(const lockstep_terms &terms, lockstep_packet &out) noexcept {
  return lockstep_welcome(&terms, &out);
}
[[nodiscard]] inline uint32_t welcomed(Bytes packet, lockstep_terms &out) noexcept {
  return lockstep_welcomed(packet.data(), packet.size(), &out);
}

} // namespace lockstep

#endif

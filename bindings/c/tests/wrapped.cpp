/* A match of two bots by lockstep.hpp: a server, two peers whose packets come late and twice, and a
 * world that steps by the same plays. It prints the frames and the hash that all of them have.
 *
 * usage: wrapped FRAMES SEED MAP RULES.. */
#include "../lockstep.hpp"

#include <cstdio>
#include <cstdlib>
#include <cstring>
#include <fstream>
#include <iterator>

namespace {

[[noreturn]] void die(const char *why) {
  std::fprintf(stderr, "wrapped: %s\n", why);
  std::exit(1);
}

void must(uint32_t code, const char *what) {
  if (code != LOCKSTEP_OK) {
    std::fprintf(stderr, "wrapped: %s: code %u\n", what, code);
    std::exit(1);
  }
}
#define MUST(call) must(call, #call)

void check(bool holds, const char *what) {
  if (!holds) die(what);
}
#define CHECK(what) check(what, #what)

std::string content(const char *name) {
  std::ifstream file(name, std::ios::binary);
  if (!file) die(name);
  return {std::istreambuf_iterator<char>(file), std::istreambuf_iterator<char>()};
}

uint64_t hash_of(lockstep::Game &game, uint32_t frames) {
  lockstep_head head;
  MUST(game.read_head(head));
  CHECK(head.frames == frames);
  return head.hash;
}

/* Both see the same world. */
void compare(lockstep::Game &one, lockstep::Game &other) {
  std::vector<lockstep_actor> actors(3), others;
  std::vector<uint8_t> ore, other_ore(1 << 15);
  lockstep::Grid seen, other_seen;
  MUST(one.read_actors(actors));
  MUST(other.read_actors(others));
  CHECK(actors.size() == others.size() && !actors.empty());
  for (size_t at = 0; at < actors.size(); at++) {
    std::vector<lockstep_item> items, other_items;
    CHECK(std::memcmp(&actors[at], &others[at], sizeof actors[at]) == 0);
    MUST(one.read_items(actors[at].id, items));
    MUST(other.read_items(actors[at].id, other_items));
    CHECK(items.size() == actors[at].acts + actors[at].builds &&
          items.size() == other_items.size());
  }
  MUST(one.read_ore(ore));
  MUST(other.read_ore(other_ore));
  CHECK(ore == other_ore);
  MUST(one.seen(0, seen));
  MUST(other.seen(0, other_seen));
  CHECK(seen.width == other_seen.width && seen.cells == other_seen.cells &&
        seen.cells.size() == ore.size());
}

/* A moved object is empty, and what it was moved to holds what it held. */
void move_about(lockstep::Setup &setup) {
  lockstep::Setup copy;
  lockstep_packet hello, again;
  MUST(setup.share(copy));
  MUST(copy.hello(hello));
  lockstep::Setup there(std::move(copy));
  CHECK(copy.hello(again) == LOCKSTEP_WRONG_OBJECT);
  MUST(there.hello(again));
  CHECK(hello.len == again.len && std::memcmp(hello.bytes, again.bytes, hello.len) == 0);
  copy = std::move(there);
  CHECK(there.hello(again) == LOCKSTEP_WRONG_OBJECT);
  MUST(copy.hello(again));
}

/* Names, ground and ways. */
void look_about(lockstep::Setup &setup, lockstep::World &world) {
  lockstep::Grid ground;
  lockstep::Route route;
  lockstep_head head;
  lockstep_kind kind;
  std::string name;
  uint32_t kinds = 0, ways = 0;
  MUST(setup.terrain(ground));
  MUST(world.read_head(head));
  CHECK(ground.width == head.width && ground.cells.size() == size_t(head.width) * head.height);
  CHECK(ground.at(head.width - 1, head.height - 1) == ground.cells.back());
  for (; setup.kind(kinds, kind) == LOCKSTEP_OK; kinds++) {
    MUST(setup.kind_name(kinds, name));
    CHECK(!name.empty());
    uint32_t code = world.find_route(kinds, {0, 0}, {uint8_t(head.width - 1), 0}, route);
    CHECK(code == LOCKSTEP_OK || code == LOCKSTEP_NONE);
    if (code == LOCKSTEP_OK) ways++, CHECK(route.cells.size() > 1 && route.cost > 0);
  }
  CHECK(kinds > 0 && ways > 0 && setup.kind_name(kinds, name) == LOCKSTEP_NONE);
}

/* The eight orders, and a ninth to seventeenth that find no room. */
void order_all() {
  lockstep::Play play;
  CHECK(play.move(1, 2, 3) && play.attack(1, 2) && play.harvest(1, 2, 3, true) && play.stop(1));
  CHECK(play.produce(1, 2) && play.cancel(1) && play.donate(1, 2) && play.pace(3) &&
        play.count() == 8);
  while (play.count() < LOCKSTEP_MAX_ORDERS) CHECK(play.pace(1));
  CHECK(!play.pace(1) && !play.move(1, 2, 3));
  play.clear();
  CHECK(play.count() == 0 && play.len == 2);
}

struct Match {
  lockstep::Server server;
  lockstep::Peer peers[2];
  uint32_t sent[2][2] = {{0, 0}, {0, 0}};

  void up(uint32_t client, const lockstep_packet &packet) {
    uint32_t told;
    MUST(server.up(client, packet, told));
  }

  /* What the server has goes to both peers, the last first, each entry twice. */
  void down() {
    for (uint32_t to = 0; to < 2; to++)
      for (uint32_t of = 0; of < 2; of++) {
        std::vector<lockstep_packet> late;
        lockstep_packet packet;
        for (; server.entry(of, sent[to][of], packet) == LOCKSTEP_OK; sent[to][of]++)
          late.insert(late.begin(), packet);
        for (const lockstep_packet &it : late) {
          uint32_t told;
          MUST(peers[to].deliver(it, told));
          CHECK(peers[to].deliver(it, told) == LOCKSTEP_REPEAT);
        }
      }
  }

  /* All tick, and the peers report. */
  void tick(uint32_t frame) {
    for (uint32_t client = 0; client < 2; client++) {
      lockstep_packet packet;
      uint32_t told = 0;
      MUST(peers[client].tick(told));
      CHECK(told == frame);
      MUST(peers[client].report(packet));
      up(client, packet);
    }
    uint32_t told = 0;
    MUST(server.tick(told));
    CHECK(told == frame);
  }
};

void run(uint32_t frames, uint32_t seed, lockstep::Setup &setup) {
  Match match;
  lockstep::World world;
  lockstep::Frame frame;
  MUST(world.create(setup, seed, 2));
  MUST(match.server.create(setup, 2, seed));
  for (uint32_t me = 0; me < 2; me++) {
    lockstep_terms terms = {me, 2, 1, seed}, read;
    lockstep_packet packet;
    uint32_t told;
    MUST(setup.hello(packet));
    MUST(setup.greeted(packet, told));
    MUST(lockstep::welcome(terms, packet));
    MUST(lockstep::welcomed(packet, read));
    MUST(match.peers[me].create(setup, read));
  }
  look_about(setup, world);
  for (uint32_t at = 0; at < frames; at++) {
    frame.clear();
    for (uint32_t me = 0; me < 2; me++) {
      lockstep::Play play;
      lockstep_packet packet;
      MUST(match.peers[me].bot(me, play));
      MUST(match.peers[me].seal(play, packet));
      match.up(me, packet);
      frame.add(play);
    }
    match.down();
    match.tick(at);
    MUST(world.step(frame));
  }
  lockstep_alarm alarm;
  CHECK(match.server.alarm(0, alarm) == LOCKSTEP_NONE &&
        match.server.alarm(1, alarm) == LOCKSTEP_NONE);
  uint64_t hash = hash_of(world, frames);
  CHECK(hash_of(match.server, frames) == hash);
  for (lockstep::Peer &it : match.peers) {
    CHECK(hash_of(it, frames) == hash);
    compare(world, it);
  }
  uint32_t told;
  for (uint32_t me = 0; me < 2; me++) MUST(match.server.drop(me, told));
  CHECK(match.server.tick(told) == LOCKSTEP_OVER);
  frame.clear();
  frame.add_departed();
  frame.add_departed();
  MUST(world.step(frame));
  std::printf("frames %u hash %016llx\n", frames, static_cast<unsigned long long>(hash));
}

} // namespace

int main(int count, char **words) {
  if (count < 4) die("usage: wrapped FRAMES SEED MAP RULES..");
  lockstep::Setup setup;
  lockstep_fault at;
  MUST(setup.create());
  MUST(setup.add_map(std::string_view(content(words[3]))));
  for (int number = 4; number < count; number++)
    MUST(setup.add_rules(std::string_view(content(words[number]))));
  MUST(setup.read(at));
  move_about(setup);
  order_all();
  run(uint32_t(std::strtoul(words[1], nullptr, 10)), uint32_t(std::strtoul(words[2], nullptr, 10)),
      setup);
}

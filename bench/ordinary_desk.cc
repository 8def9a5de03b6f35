// An ordinary program that answers the loads of bench/busy.py and bench/course.py as the desk does: the switch of ordinary.h, kept replies, event reports and
// figures, all over memory. It proves nothing and refuses little.
//
//   g++ -O2 -std=c++20 -o ordinary_desk bench/ordinary_desk.cc
//   bench/run ./ordinary_desk plans
//
// It is what the program is measured against on the same machine at the same time.
#include "ordinary.h"
#include <unistd.h>

struct Kept {
    string request, reply;
};

class Desk : Switch<NoNotes> {
    std::unordered_map<string, Kept> kept;
    string key;

  public:
    void take(string_view line, string &out) {
        size_t blank = line.find(' ');
        unsigned at = 0;
        for (char c : line.substr(0, blank)) at = at * 10 + (c - '0');
        string_view json = line.substr(blank + 1);
        Members m;
        if (!m.read(json)) {
            out += "400 {\"error\":{\"code\":30,\"member\":\"json\",\"name\":\"malformed\"}}\n";
            return;
        }
        string_view requester = m.text("requester"), invoke = m.text("invoke");
        key.assign(requester).append(" ").append(invoke);
        auto [it, is_new] = kept.try_emplace(key);
        if (is_new) {
            const char *refusal = step(at, m);
            string &reply = it->second.reply;
            reply = refusal ? "409 " : "200 ";
            write_reply(reply, refusal, refusal ? code(refusal) : 0, result, requester, invoke);
            it->second.request = json;
        }
        out.append(it->second.reply).append("\n");
    }
};

int main() {
    Desk desk;
    std::vector<char> room(1 << 16);
    string out;
    size_t held = 0;
    for (ssize_t n; (n = read(0, room.data() + held, room.size() - held)) > 0;) {
        held += n;
        const char *from = room.data(), *end = from + held;
        for (const char *feed; (feed = static_cast<const char *>(memchr(from, '\n', end - from))); from = feed + 1)
            desk.take({from, size_t(feed - from)}, out);
        held = end - from;
        memmove(room.data(), from, held);
        for (size_t sent = 0; sent < out.size();) {
            ssize_t k = write(1, out.data() + sent, out.size() - sent);
            if (k < 0) return 1;
            sent += k;
        }
        out.clear();
    }
    return 0;
}

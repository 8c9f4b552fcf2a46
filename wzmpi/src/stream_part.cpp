// Linked into each program and library in C++: std::cin, std::cout, std::cerr and std::clog over the rank's own streams, with flags and widths of its own. The
// linker takes them for the program's by --wrap. They are never destroyed, as those of the library aren't.
#include <cstdio>
#include <ext/stdio_sync_filebuf.h>
#include <istream>
#include <new>
#include <ostream>

extern "C" FILE *wz_stream_(int number);

namespace {
using buffer = __gnu_cxx::stdio_sync_filebuf<char>;

// Memory in which an object is made before any of the program's.
template <typename Type> struct room {
    alignas(Type) unsigned char bytes[sizeof(Type)];
};
room<buffer> buffers[3];
bool is_synchronised = true;

buffer *open(int number) { return new (buffers[number].bytes) buffer(wz_stream_(number)); }
} // namespace

extern "C" {
__attribute__((visibility("hidden"))) room<std::istream> __wrap__ZSt3cin;
__attribute__((visibility("hidden"))) room<std::ostream> __wrap__ZSt4cout;
__attribute__((visibility("hidden"))) room<std::ostream> __wrap__ZSt4cerr;
__attribute__((visibility("hidden"))) room<std::ostream> __wrap__ZSt4clog;

// The streams' buffers are those of C always, so that ranks don't race for one buffer.
__attribute__((visibility("hidden"))) bool __wrap__ZNSt8ios_base15sync_with_stdioEb(bool synchronises) {
    bool before = is_synchronised;
    is_synchronised = synchronises;
    return before;
}
}

__attribute__((constructor(101))) static void make_streams() {
    std::ostream *out = new (__wrap__ZSt4cout.bytes) std::ostream(open(1));
    std::ostream *error = new (__wrap__ZSt4cerr.bytes) std::ostream(open(2));
    new (__wrap__ZSt4clog.bytes) std::ostream(error->rdbuf());
    std::istream *in = new (__wrap__ZSt3cin.bytes) std::istream(open(0));
    in->tie(out);
    error->tie(out);
    error->setf(std::ios_base::unitbuf);
}

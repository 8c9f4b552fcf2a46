// The streams of C++: a rank has its own flags, lines of several ranks don't mix, and the last ones come as the rank's objects end.
#include <iomanip>
#include <iostream>
#include <mpi.h>
#include <string>
#include <unistd.h>

namespace {
struct early { // before main
    early() { std::cerr << std::setfill('.'); }
} first;

struct last { // when the rank ends
    int rank = -1;
    ~last() {
        usleep(100000);
        std::cout << "rank " << rank << " ends" << std::endl;
    }
};
thread_local last at_end;
} // namespace

int main(int argc, char **argv) {
    int rank;
    std::string word = "nothing";
    MPI_Init(&argc, &argv);
    MPI_Comm_rank(MPI_COMM_WORLD, &rank);
    at_end.rank = rank;
    if (argc > 1 && !std::ios::sync_with_stdio(false)) std::cout << "another rank's word\n";
    if (rank == 0) {
        std::cout << std::hex << std::setprecision(3);
        std::cin >> word;
        std::cout << "rank 0 reads " << word << std::endl;
    }
    MPI_Barrier(MPI_COMM_WORLD);
    if (rank == 1) std::cout << "rank 1: " << 255 << ' ' << 3.14159265 << std::endl;
    for (int i = 0; i < 5000; i++) std::cout << "rank " << std::dec << rank << " line " << i << '\n';
    MPI_Barrier(MPI_COMM_WORLD);
    if (rank == 1) std::cerr << std::setw(4) << 1 << std::endl;
    MPI_Finalize();
}

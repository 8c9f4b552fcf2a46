// In C++: each rank has its own copy of a template's static variable.
//
/* wzc++ hello.cpp -o hello
   wzrun -n 3 ./hello      status 0
   > the ranks' numbers are 0 1 2 */
#include <mpi.h>

#include <cstdio>
#include <vector>

template <typename T> struct Kept {
    static T value;
};
template <typename T> T Kept<T>::value = T();

int main(int argc, char **argv) {
    int rank = 0, size = 0;
    MPI_Init(&argc, &argv);
    MPI_Comm_rank(MPI_COMM_WORLD, &rank);
    MPI_Comm_size(MPI_COMM_WORLD, &size);
    std::vector<int> all(static_cast<std::size_t>(size));
    Kept<int>::value = rank;
    MPI_Barrier(MPI_COMM_WORLD);
    MPI_Gather(&Kept<int>::value, 1, MPI_INT, all.data(), 1, MPI_INT, 0, MPI_COMM_WORLD);
    if (rank == 0) {
        std::printf("the ranks' numbers are");
        for (int number : all) std::printf(" %d", number);
        std::printf("\n");
    }
    MPI_Finalize();
    return 0;
}

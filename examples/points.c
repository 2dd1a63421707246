// Sums one field of an array of structures, or with ARRAYS one of three arrays.
#ifdef ARRAYS
double x[1000], y[1000], z[1000];
#define X(i) x[i]
#else
struct {
    double x, y, z;
} points[1000];
#define X(i) points[i].x
#endif

int main(void) {
    double sum = 0;
    for (int i = 0; i < 1000; i++)
        sum += X(i);
    return sum > 0;
}

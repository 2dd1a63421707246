#include <map>
#include <vector>

// A vector and a tree of as many numbers. The cookbook asks which of them misses.
int main() {
    std::vector<int> flat;
    std::map<int, int> tree;
    for (int i = 0; i < 1000; i++)
        flat.push_back(i);
    for (int i = 0; i < 1000; i++)
        tree[i] = i;
    long sum = 0;
    for (int i = 0; i < 1000; i++)
        sum += flat[i] + tree[i];
    return sum == 0;
}

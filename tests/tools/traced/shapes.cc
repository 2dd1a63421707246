// A little of much of the standard library: strings in a map, a hash table, objects, and two sorts.
#include <algorithm>
#include <cstdio>
#include <map>
#include <memory>
#include <string>
#include <unordered_map>
#include <vector>

struct Shape {
    virtual ~Shape() = default;
    virtual double area() const = 0;
};
struct Square : Shape {
    double side;
    explicit Square(double side) : side(side) {}
    double area() const override { return side * side; }
};
struct Circle : Shape {
    double radius;
    explicit Circle(double radius) : radius(radius) {}
    double area() const override { return 3.0 * radius * radius; }
};

int main() {
    std::map<std::string, int> words;
    std::unordered_map<int, int> seen;
    std::vector<std::unique_ptr<Shape>> shapes;
    std::vector<int> numbers(200);
    unsigned drawn = 1;
    for (int &number : numbers) {
        number = (drawn = drawn * 1103515245 + 12345) >> 16;
        words["w" + std::to_string(number % 64)]++;
        seen[number % 100] += number;
        if (number % 2) shapes.push_back(std::make_unique<Square>(number));
        else shapes.push_back(std::make_unique<Circle>(number));
    }
    std::sort(numbers.begin(), numbers.end());
    auto is_less = [](const auto &one, const auto &other) { return one->area() < other->area(); };
    std::stable_sort(shapes.begin(), shapes.end(), is_less);
    long sum = numbers[100] + long(shapes[100]->area());
    for (const auto &word : words) sum += word.second * word.first.size();
    for (const auto &one : seen) sum += one.first ^ one.second;
    std::printf("%ld\n", sum);
}

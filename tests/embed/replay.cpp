// Makes the calls of random_calls.py on a hull of hull.hpp and on its polygon: replay FILE. Prints how many it made.
#include "hull.hpp"

#include <fstream>
#include <iostream>
#include <sstream>

using hull::Point;

static std::string text_of(const std::vector<Point> &points) {
    std::string text;
    for (const Point &p : points) {
        text += " " + std::to_string(p.x) + " " + std::to_string(p.y);
    }
    return text;
}

static std::string text_of(hull::Area number) {
    std::string digits;
    do {
        digits.insert(digits.begin(), static_cast<char>('0' + static_cast<int>(number % 10)));
        number /= 10;
    } while (number > 0);
    return " " + digits;
}

// the answer of a hull or of its polygon to a question
template <class Asked> static std::string question(const Asked &asked, const std::string &word, Point p) {
    if (word == "place") {
        const hull::Place place = asked.place(p);
        return place == hull::Place::inside ? " inside" : place == hull::Place::on ? " on" : " outside";
    }
    if (word == "tangents") {
        const auto seen = asked.tangents(p);
        return seen ? text_of({seen->left, seen->right}) : "";
    }
    if (word == "extreme") {
        const auto farthest = asked.extreme(p);
        return farthest ? text_of(std::vector<Point>{*farthest}) : "";
    }
    return text_of(asked.doubled_area());
}

static std::string change(hull::Hull &h, const std::string &word, Point p) {
    if (word == "remove") {
        const auto left = h.remove(p);
        return left ? " " + std::to_string(*left) : " -1";
    }
    try {
        return " " + std::to_string(h.add(p));
    } catch (const hull::Fault &fault) {
        return fault.code() == hull::Refusal::too_many ? " 0" : fault.what();
    }
}

static bool is_right(hull::Hull &h, const std::string &word, Point p, const std::string &wanted) {
    if (word == "add" || word == "remove") {
        return change(h, word, p) == wanted;
    }
    if (word == "multiplicity") {
        return " " + std::to_string(h.multiplicity(p)) == wanted;
    }
    const hull::Polygon polygon = h.polygon();
    if (word == "vertices") {
        return text_of(h.vertices()) == wanted && text_of(polygon.vertices()) == wanted;
    }
    return question(h, word, p) == wanted && question(polygon, word, p) == wanted;
}

int main(int, char **arguments) {
    std::ifstream file(arguments[1]);
    hull::Hull h(40);
    long made = 0;
    for (std::string line; std::getline(file, line);) {
        std::istringstream words(line);
        std::string word, wanted;
        Point p;
        words >> word >> p.x >> p.y;
        std::getline(words, wanted);
        if (word == "move") {
            h.clear();
        } else if (is_right(h, word, p, wanted)) {
            made++;
        } else {
            std::cout << "wrong: " << line << '\n';
            return 1;
        }
    }
    std::cout << made << " calls\n";
    return made == 0;
}

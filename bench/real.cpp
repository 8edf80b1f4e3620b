// Code that templates of the C++ library expand to: strings, vectors, maps, sorting, streams and
// regular expressions. None of it is run.
#include <algorithm>
#include <map>
#include <numeric>
#include <regex>
#include <sstream>
#include <string>
#include <unordered_map>
#include <vector>

// Whether the text matches the pattern.
extern "C" bool matches(const char *text, const char *pattern) { return std::regex_match(std::string(text), std::regex(pattern)); }

// The number of occurrences of the most frequent word of a text.
extern "C" int most_frequent(const char *text) {
    std::map<std::string, int> counts;
    std::istringstream words(text);
    for (std::string word; words >> word;) {
        ++counts[word];
    }
    auto least = [](const auto &a, const auto &b) { return a.second < b.second; };
    auto most = std::max_element(counts.begin(), counts.end(), least);
    return most == counts.end() ? 0 : most->second;
}

// How many different numbers there are.
extern "C" int different(const long long *numbers, int count) {
    std::unordered_map<long long, int> places;
    for (int i = 0; i < count; ++i) {
        places.emplace(numbers[i], i);
    }
    return places.size();
}

// The middle of the numbers, and their mean.
extern "C" double middle(const double *numbers, int count, double *mean) {
    std::vector<double> sorted(numbers, numbers + count);
    std::stable_sort(sorted.begin(), sorted.end());
    *mean = std::accumulate(sorted.begin(), sorted.end(), 0.0) / count;
    return sorted[count / 2];
}

// The words of a text in the order of the alphabet.
extern "C" char *in_order(const char *text, char *out) {
    std::istringstream words(text);
    std::vector<std::string> sorted;
    for (std::string word; words >> word;) {
        sorted.push_back(word);
    }
    std::sort(sorted.begin(), sorted.end());
    for (const std::string &word : sorted) {
        out = std::copy(word.begin(), word.end(), out);
        *out++ = ' ';
    }
    return out;
}

// Reads rings, one a line as `x y x y ..`, and writes GEOS's matrix of each pair. The microseconds for reading and for all
// pairs go to standard error.
#include <geos_c.h>

#include <chrono>
#include <cstdio>
#include <iostream>
#include <sstream>
#include <string>
#include <vector>

static void quiet(const char*, ...) {}

using Clock = std::chrono::steady_clock;

static long long micros(Clock::time_point from, Clock::time_point to) {
  return std::chrono::duration_cast<std::chrono::microseconds>(to - from).count();
}

static GEOSGeometry* polygon(const std::string& line) {
  std::istringstream words(line);
  std::vector<double> numbers;
  for (double number; words >> number;) numbers.push_back(number);
  unsigned count = numbers.size() / 2;
  GEOSCoordSequence* points = GEOSCoordSeq_create(count + 1, 2);
  for (unsigned k = 0; k <= count; k++) {
    GEOSCoordSeq_setX(points, k, numbers[k % count * 2]);
    GEOSCoordSeq_setY(points, k, numbers[k % count * 2 + 1]);
  }
  return GEOSGeom_createPolygon(GEOSGeom_createLinearRing(points), nullptr, 0);
}

int main() {
  initGEOS(quiet, quiet);
  auto begun = Clock::now();
  std::vector<GEOSGeometry*> polygons;
  for (std::string line; std::getline(std::cin, line);) polygons.push_back(polygon(line));
  auto start = Clock::now();
  std::string text;
  for (size_t i = 0; i < polygons.size(); i++)
    for (size_t j = i + 1; j < polygons.size(); j++) {
      char* matrix = GEOSRelate(polygons[i], polygons[j]);
      text += std::string(matrix ? matrix : "error") + "\n";
      GEOSFree(matrix);
    }
  auto end = Clock::now();
  fwrite(text.data(), 1, text.size(), stdout);
  fprintf(stderr, "%lld %lld\n", micros(begun, start), micros(start, end));
  return 0;
}

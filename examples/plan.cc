// The same as plan.c in C++: plans a job file and prints the plan, its report, and the reason under
// each layer that it lacks. A struct and a call have the name film_plan: hence `struct` below.
#include "film_planner.h"
#include <cstdio>
#include <fstream>
#include <iostream>
#include <iterator>
#include <memory>
#include <stdexcept>
#include <string>
#include <vector>

// A result, or the refusal in the documents' words.
static std::size_t must(const char *what, std::uint64_t answer)
{
    std::uint32_t refusal = film_refused(answer);
    if (!refusal) return static_cast<std::size_t>(answer);
    throw std::runtime_error(std::string(what) + " refused " + std::to_string(refusal) + ": " +
                             film_sentence(refusal));
}

static void plan(const char *path)
{
    std::ifstream in(path, std::ios::binary);
    if (!in) throw std::runtime_error(std::string(path) + ": cannot be opened");
    // Of an empty file data() may be null.
    std::vector<std::uint8_t> file((std::istreambuf_iterator<char>(in)), {});

    std::unique_ptr<film_store> store(new film_store());
    film_job job = film_job();
    must("the job file is", film_read_job_of(file.data(), file.size(), store.get(), &job));
    std::cout << "job: " << job.chunks << " chunks of " << job.span << " slots, delay " << job.delay
              << ", limit " << job.limit << ", " << job.layers << " layers, " << job.szs << " SZs, "
              << job.slots << " slots\nmarks";

    std::unique_ptr<struct film_plan> made(new struct film_plan());
    must("the plan is", film_plan_of(&job, made.get()));
    for (std::size_t i = 0; i < job.chunks; i++) std::cout << ' ' << unsigned(made->marks[i]);
    std::cout << '\n';
    const film_list &list = made->list;
    for (std::size_t k = 0; k < list.rows; k++)
        std::cout << "slot " << list.slots[k] << " chunk " << list.chunks[k] << " layer "
                  << unsigned(list.layers[k]) << " bytes " << list.bytes[k] << '\n';

    std::vector<std::uint8_t> text(FILM_REASONS);
    std::size_t n = must("the report is", film_report_of(&job, text.data(), text.size()));
    std::cout << std::string(text.begin(), text.begin() + static_cast<std::ptrdiff_t>(n));
    n = must("the reasons are", film_reasons_of(&job, text.data(), text.size()));
    std::cout << std::string(text.begin(), text.begin() + static_cast<std::ptrdiff_t>(n));
}

int main(int argc, char **argv)
{
    try {
        plan(argc > 1 ? argv[1] : "samples/a.job");
        return 0;
    } catch (const std::exception &e) {
        std::cerr << e.what() << '\n';
        return 1;
    }
}

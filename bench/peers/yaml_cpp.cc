// yaml-cpp: the events of YAML::Parser, and YAML::Load. Its scanner is not public.
#include "turns.h"

#include <sstream>
#include <yaml-cpp/eventhandler.h>
#include <yaml-cpp/yaml.h>

class Counter : public YAML::EventHandler {
public:
    long count = 0;
    void OnDocumentStart(const YAML::Mark &) override { count++; }
    void OnDocumentEnd() override { count++; }
    void OnNull(const YAML::Mark &, YAML::anchor_t) override { count++; }
    void OnAlias(const YAML::Mark &, YAML::anchor_t) override { count++; }
    void OnScalar(const YAML::Mark &, const std::string &, YAML::anchor_t, const std::string &) override { count++; }
    void OnSequenceStart(const YAML::Mark &, const std::string &, YAML::anchor_t, YAML::EmitterStyle::value) override { count++; }
    void OnSequenceEnd() override { count++; }
    void OnMapStart(const YAML::Mark &, const std::string &, YAML::anchor_t, YAML::EmitterStyle::value) override { count++; }
    void OnMapEnd() override { count++; }
};

static std::string text() { return std::string(reinterpret_cast<const char *>(bytes), size); }

static long take_events() {
    std::istringstream input(text());
    YAML::Parser parser(input);
    Counter counter;
    while (parser.HandleNextDocument(counter))
        ;
    return counter.count;
}

static long load() { return static_cast<long>(YAML::Load(text()).size()); }

int main(int argc, char **argv) {
    const struct way ways[] = {{"events", take_events}, {"loading", load}, {NULL, NULL}};
    return take_turns(argc, argv, ways);
}

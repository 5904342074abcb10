// Reads instances by pb.hpp: arrays INSTANCE.. It writes each again from its vectors, each row after its line and column, as `pb tidy` writes
// it but without its header and its comments. A rejected instance gives the line of the fault.

#include <pb.hpp>

#include <fstream>
#include <iostream>
#include <iterator>

int main(int count, char **words)
{
    for (int k = 1; k < count; k++) {
        std::ifstream file(words[k], std::ios::binary);
        try {
            const pb::Instance it = pb::Instance::read(std::string(std::istreambuf_iterator<char>(file), {}));
            std::size_t term = 0;
            for (std::size_t row = 0; row < it.kinds.size(); row++) {
                std::cout << it.places[row].line << ":" << it.places[row].column << " " << (it.kinds[row] == PB_OBJECTIVE ? "min: " : "");
                for (; term < it.ends[row]; term++) {
                    const std::string digits = it.coefficients[term].str();
                    std::cout << (digits[0] == '-' ? "" : "+") << digits << " ";
                    std::cout << (it.negated[term] ? "~" : "") << it.names[it.numbers[term]] << " ";
                }
                if (it.kinds[row] != PB_OBJECTIVE)
                    std::cout << (it.kinds[row] == PB_EQUAL ? "= " : ">= ") << it.degrees[row].str() << " ";
                std::cout << ";\n";
            }
        } catch (const pb::Fault &fault) {
            std::cout << fault.what() << "\n";
        }
    }
}

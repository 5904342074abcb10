// Checks a proof of an instance while it comes in pieces: stream INSTANCE PROOF [SIZE]. It prints what `pb check` prints, and ends with its
// status.

#include <pb.hpp>

#include <fstream>
#include <iostream>
#include <iterator>
#include <string>

int main(int count, char **words)
{
    if (count < 3) {
        std::cerr << "usage: stream INSTANCE PROOF [SIZE]\n";
        return PB_MISUSE;
    }
    std::ifstream instance(words[1], std::ios::binary), proof(words[2], std::ios::binary);
    if (!instance || !proof) {
        std::cerr << words[instance ? 2 : 1] << ": cannot open\n";
        return PB_FAILED;
    }
    try {
        pb::Checker checker(std::string(std::istreambuf_iterator<char>(instance), {}));
        std::string piece(count > 3 ? std::stoul(words[3]) : 4096, '\0');
        while (proof.read(&piece[0], static_cast<std::streamsize>(piece.size())), proof.gcount() > 0)
            checker.feed({piece.data(), static_cast<std::size_t>(proof.gcount())});
        std::cout << checker.finish().str() << "\n";
    } catch (const pb::Fault &fault) {
        std::cerr << fault.what() << "\n";
        return fault.status();
    }
    return PB_OK;
}

// Relays one encapsulation with real Ice, as `ice relay` does: reads it from standard input, as a value of the type
// that the first word names, and writes the same value to standard output, in sliced format. Further words are
// properties of Ice, as --Ice.ClassGraphDepthMax=100. Values without class instances need no communicator of Ice, and
// get none. Which mapping of Ice it is built with is the compiler's option ICE_CPP11_MAPPING.
#include <Ice/Ice.h>
#include <Speed.h>
#include <cstdio>
#include <cstdlib>
#include <cstring>
#include <string>
#include <unistd.h>

#ifdef ICE_CPP11_MAPPING
typedef std::shared_ptr<Trees::Node> NodePtr;
typedef std::shared_ptr<Trees::Least> LeastPtr;
static const Ice::FormatType sliced = Ice::FormatType::SlicedFormat;
#else
typedef Trees::NodePtr NodePtr;
typedef Trees::LeastPtr LeastPtr;
static const Ice::FormatType sliced = Ice::SlicedFormat;
#endif

enum { PIECE = 65536 };

static void readAll(Ice::ByteSeq& bytes)
{
    ssize_t count = 1;
    for (size_t size = 0; count > 0; size += count)
    {
        bytes.resize(size + PIECE);
        count = read(0, &bytes[size], PIECE);
        bytes.resize(size + (count > 0 ? count : 0));
    }
}

static void writeAll(const Ice::Byte* first, const Ice::Byte* last)
{
    while (first < last)
    {
        ssize_t count = write(1, first, last - first);
        if (count < 0)
        {
            exit(6);
        }
        first += count;
    }
}

template<class T> static void relay(Ice::InputStream& in)
{
    T value;
    in.startEncapsulation();
    in.read(value);
    in.readPendingValues();
    in.endEncapsulation();
    Ice::OutputStream out;
    out.startEncapsulation(Ice::Encoding_1_1, sliced);
    out.write(value);
    out.writePendingValues();
    out.endEncapsulation();
    std::pair<const Ice::Byte*, const Ice::Byte*> written = out.finished();
    writeAll(written.first, written.second);
}

static void relayValue(const std::string& type, const Ice::ByteSeq& bytes)
{
    Ice::InputStream in(Ice::Encoding_1_1, bytes);
    if (type == "::Speed::Bytes")
    {
        relay<Speed::Bytes>(in);
    }
    else if (type == "::Speed::Lines")
    {
        relay<Speed::Lines>(in);
    }
    else if (type == "::Speed::Counts")
    {
        relay<Speed::Counts>(in);
    }
    else if (type == "::Shop::Orders")
    {
        relay<Shop::Orders>(in);
    }
    else if (type == "::Shop::Book")
    {
        relay<Shop::Book>(in);
    }
    else if (type == "::Shop::Stock")
    {
        relay<Shop::Stock>(in);
    }
    else
    {
        exit(2);
    }
}

static void relayGraph(const std::string& type, const Ice::ByteSeq& bytes, int argc, char** argv)
{
    Ice::CommunicatorHolder holder(argc, argv);
    Ice::InputStream in(holder.communicator(), Ice::Encoding_1_1, bytes);
    if (type == "::Trees::Node")
    {
        relay<NodePtr>(in);
    }
    else
    {
        relay<LeastPtr>(in);
    }
}

int main(int argc, char** argv)
{
    std::string type = argc > 1 ? argv[1] : "";
    Ice::ByteSeq bytes;
    readAll(bytes);
    try
    {
        if (type.find("::Trees::") == 0)
        {
            relayGraph(type, bytes, argc, argv);
        }
        else
        {
            relayValue(type, bytes);
        }
    }
    catch (const Ice::MarshalException& refused)
    {
        fprintf(stderr, "refused: %s\n", refused.reason.c_str());
        return 4;
    }
    return 0;
}

// Writes exceptions with real Ice: a line for each, with its name, its format and its encapsulation in hexadecimal. Which mapping of Ice
// it is built with is the compiler's option ICE_CPP11_MAPPING.
#include <Ice/Ice.h>
#include <Raised.h>
#include <cstdio>

#ifdef ICE_CPP11_MAPPING
#    define FORMAT(name) Ice::FormatType::name
typedef std::shared_ptr<T::N> NPtr;
typedef std::shared_ptr<T::D> DPtr;
template<class C> std::shared_ptr<C> made() { return std::make_shared<C>(); }
#else
#    define FORMAT(name) Ice::name
typedef T::NPtr NPtr;
typedef T::DPtr DPtr;
template<class C> IceUtil::Handle<C> made() { return new C; }
#endif

static Ice::CommunicatorPtr communicator;

template<class E> static void tell(const char* name, Ice::FormatType format, const E& raised)
{
    Ice::OutputStream out(communicator);
    out.startEncapsulation(Ice::Encoding_1_1, format);
    out.writeException(raised);
    out.endEncapsulation();
    Ice::ByteSeq bytes;
    out.finished(bytes);
    printf("%s %s ", name, format == FORMAT(CompactFormat) ? "compact" : "sliced");
    for (size_t at = 0; at < bytes.size(); ++at)
    {
        printf("%02X", bytes[at]);
    }
    printf("\n");
}

static NPtr node(int v)
{
    NPtr found = made<T::N>();
    found->v = v;
    return found;
}

static DPtr derived(int v, const char* x)
{
    DPtr found = made<T::D>();
    found->v = v;
    found->x = x;
    return found;
}

static void tellAll(Ice::FormatType format)
{
    tell("bad", format, T::Bad());
    T::F one;
    one.code = 5;
    tell("one", format, one);
    T::G base;
    base.code = -2;
    base.why = "x";
    tell("base", format, base);
    T::G optional;
    optional.code = 7;
    optional.more = 9;
    tell("optional", format, optional);
    tell("null", format, T::H());
    T::H ring;
    ring.held = node(1);
    ring.held->next = ring.held;
    ring.again = ring.held;
    tell("ring", format, ring);
    ring.held->next = NPtr();
    T::I deep;
    deep.held = derived(3, "d");
    deep.again = node(4);
    deep.again->next = deep.held;
    deep.other = deep.again;
    deep.late = deep.held;
    tell("deep", format, deep);
}

int main(int argc, char** argv)
{
    communicator = Ice::initialize(argc, argv);
    tellAll(FORMAT(SlicedFormat));
    tellAll(FORMAT(CompactFormat));
    communicator->destroy();
}

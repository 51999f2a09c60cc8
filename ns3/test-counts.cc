/*
 * test-counts.cc: the queue disc counts what the scheduler counts, gives the items that the scheduler gives, and keeps
 * the laws of ns-3's statistics. Items come and go at random; a second scheduler, which the test drives itself, gets
 * the same packets.
 */
#include "maltcove-queue-disc.h"

#include "ns3/core-module.h"
#include "ns3/internet-module.h"
#include "ns3/network-module.h"
#include "ns3/traffic-control-module.h"

#include <cstdio>
#include <cstdlib>
#include <cstring>
#include <map>
#include <string>
#include <vector>

using namespace ns3;

#define CHECK(condition) \
    do \
    { \
        if (!(condition)) \
        { \
            std::printf("%s:%d: not so: %s\n", __FILE__, __LINE__, #condition); \
            std::exit(1); \
        } \
    } while (0)

namespace
{

/** A filter that knows items of even length alone, and puts them into flow length / 2. */
class LengthFilter : public PacketFilter
{
  private:
    bool CheckProtocol(Ptr<QueueDiscItem>) const override
    {
        return true;
    }

    int32_t DoClassify(Ptr<QueueDiscItem> item) const override
    {
        return item->GetSize() % 2 ? PF_NO_MATCH : static_cast<int32_t>(item->GetSize() / 2);
    }
};

struct Flow
{
    uint8_t number;
    bool isIpv6;
    uint8_t ecn;
};

constexpr uint32_t HEADER_V4 = 20;
constexpr uint32_t HEADER_V6 = 40;

/** An item of UDP from port 1000 + number to port 443, of 50 payload bytes or more. */
Ptr<QueueDiscItem>
MakeItem(const Flow& flow, uint32_t payload)
{
    std::vector<uint8_t> bytes(payload);
    const uint32_t port = 1000 + flow.number;
    bytes[0] = static_cast<uint8_t>(port >> 8);
    bytes[1] = static_cast<uint8_t>(port);
    bytes[2] = 443 >> 8;
    bytes[3] = 443 & 255;
    Ptr<Packet> packet = Create<Packet>(bytes.data(), payload);
    if (flow.isIpv6)
    {
        Ipv6Header header;
        header.SetSource(Ipv6Address("2001:db8::1"));
        header.SetDestination(Ipv6Address("2001:db8::2"));
        header.SetNextHeader(17);
        header.SetPayloadLength(static_cast<uint16_t>(payload));
        header.SetEcn(static_cast<Ipv6Header::EcnType>(flow.ecn));
        return Create<Ipv6QueueDiscItem>(packet, Mac48Address(), Ipv6L3Protocol::PROT_NUMBER, header);
    }
    Ipv4Header header;
    header.SetSource(Ipv4Address("10.0.0.1"));
    header.SetDestination(Ipv4Address("10.0.0.2"));
    header.SetProtocol(17);
    header.SetPayloadSize(static_cast<uint16_t>(payload));
    header.SetEcn(static_cast<Ipv4Header::EcnType>(flow.ecn));
    return Create<Ipv4QueueDiscItem>(packet, Mac48Address(), Ipv4L3Protocol::PROT_NUMBER, header);
}

/** The same packet as the library's header describes it, with the packet's number as the tag. */
maltcove_packet
MakePacket(const Flow& flow, uint32_t payload, uint64_t tag)
{
    maltcove_packet packet{};
    packet.tag = tag;
    packet.version = flow.isIpv6 ? 6 : 4;
    packet.len = payload + (flow.isIpv6 ? HEADER_V6 : HEADER_V4);
    packet.proto = 17;
    packet.sport = static_cast<uint16_t>(1000 + flow.number);
    packet.dport = 443;
    packet.ecn = flow.ecn;
    const size_t size = flow.isIpv6 ? 16 : 4;
    std::memcpy(packet.src, flow.isIpv6 ? "\x20\x01\x0d\xb8\0\0\0\0\0\0\0\0\0\0\0\1" : "\12\0\0\1", size);
    std::memcpy(packet.dst, flow.isIpv6 ? "\x20\x01\x0d\xb8\0\0\0\0\0\0\0\0\0\0\0\2" : "\12\0\0\2", size);
    return packet;
}

uint8_t
EcnOf(Ptr<QueueDiscItem> item)
{
    if (auto ipv4 = DynamicCast<Ipv4QueueDiscItem>(item))
    {
        return static_cast<uint8_t>(ipv4->GetHeader().GetEcn());
    }
    return static_cast<uint8_t>(DynamicCast<Ipv6QueueDiscItem>(item)->GetHeader().GetEcn());
}

/** The disc, and beside it a scheduler of its own with the same parameters. */
class Pair
{
  public:
    explicit Pair(uint64_t memoryLimit)
    {
        m_disc = CreateObject<MaltcoveQueueDisc>();
        m_disc->SetAttribute("MaxSize", QueueSizeValue(QueueSize("300p")));
        m_disc->SetAttribute("Flows", UintegerValue(64));
        m_disc->SetAttribute("DropBatchSize", UintegerValue(7));
        m_disc->SetAttribute("Target", StringValue("4ms"));
        m_disc->SetAttribute("Interval", StringValue("30ms"));
        m_disc->SetAttribute("CeThreshold", TimeValue(MilliSeconds(9)));
        m_disc->SetAttribute("Perturbation", UintegerValue(0x01020304));
        m_disc->SetAttribute("Mtu", UintegerValue(900));
        m_disc->SetAttribute("MemoryLimit", UintegerValue(memoryLimit));
        m_disc->SetQuantum(800);
        m_disc->TraceConnectWithoutContext("DropAfterDequeue", MakeCallback(&Pair::NoteDrop, this));
        m_disc->Initialize();
        const std::string words = "limit 300 flows 64 drop_batch 7 target 4ms interval 30ms ce_threshold 9ms mtu 900 "
                                  "quantum 800 memory_limit " + std::to_string(memoryLimit);
        const uint8_t seed[16] = {1, 2, 3, 4};
        CHECK(maltcove_open(&m_beside, words.data(), words.size(), seed, 16, nullptr) == MALTCOVE_OK);
    }

    ~Pair()
    {
        maltcove_free(&m_beside);
        m_disc->Dispose();
    }

    void Enqueue(const Flow& flow, uint32_t payload)
    {
        Ptr<QueueDiscItem> item = MakeItem(flow, payload);
        m_items.push_back(item);
        m_numbers[item] = m_items.size() - 1;
        const maltcove_packet packet = MakePacket(flow, payload, m_items.size() - 1);
        CHECK(item->GetSize() == packet.len);
        maltcove_admitted admitted;
        CHECK(maltcove_enqueue(&m_beside, Now(), &packet, &admitted) == MALTCOVE_OK);
        m_lost.clear();
        CHECK(m_disc->Enqueue(item));
        CompareDrops();
        CompareCounts();
    }

    void Dequeue()
    {
        maltcove_sent sent;
        const int answer = maltcove_dequeue(&m_beside, Now(), &sent);
        m_lost.clear();
        Ptr<QueueDiscItem> item = m_disc->Dequeue();
        CompareDrops();
        CHECK((item == nullptr) == (answer == MALTCOVE_IDLE));
        if (item)
        {
            CHECK(m_numbers.at(item) == sent.tag);
            CHECK(EcnOf(item) == sent.ecn);
        }
        CompareCounts();
    }

    /** All that could happen has happened. */
    void CheckUse()
    {
        const maltcove_totals_t totals = m_disc->GetTotals();
        CHECK(totals.dropped_codel > 0 && totals.dropped_overflow > 0);
        CHECK(totals.marked > 0 && totals.threshold_marked > 0);
        std::printf("counts: %llu accepted, %llu sent, %llu dropped by CoDel, %llu at a limit, %llu and %llu marked\n",
                    static_cast<unsigned long long>(totals.accepted), static_cast<unsigned long long>(totals.sent),
                    static_cast<unsigned long long>(totals.dropped_codel),
                    static_cast<unsigned long long>(totals.dropped_overflow),
                    static_cast<unsigned long long>(totals.marked),
                    static_cast<unsigned long long>(totals.threshold_marked));
    }

  private:
    static uint64_t Now()
    {
        return static_cast<uint64_t>(Simulator::Now().GetMicroSeconds());
    }

    void NoteDrop(Ptr<const QueueDiscItem> item, const char* reason)
    {
        m_lost.emplace_back(m_numbers.at(item), std::strcmp(reason, MaltcoveQueueDisc::OVERLIMIT_DROP) == 0);
    }

    /** The drops that ns-3 was told of are those of the scheduler, in their order. */
    void CompareDrops()
    {
        size_t place = 0;
        maltcove_dropped dropped;
        while (maltcove_drops(&m_beside, &dropped, 1) == 1)
        {
            CHECK(place < m_lost.size());
            CHECK(m_lost[place].first == dropped.tag);
            CHECK(m_lost[place].second == (dropped.cause == MALTCOVE_BY_OVERFLOW));
            place++;
        }
        CHECK(place == m_lost.size());
    }

    void CompareCounts()
    {
        const QueueDisc::Stats& stats = m_disc->GetStats();
        const maltcove_totals_t totals = m_disc->GetTotals();
        maltcove_totals_t beside;
        CHECK(maltcove_totals(&m_beside, &beside) == MALTCOVE_OK);
        CHECK(totals.accepted == beside.accepted && totals.sent == beside.sent && totals.queued == beside.queued);
        // the laws of ns-3's statistics
        CHECK(stats.nTotalReceivedPackets == stats.nTotalEnqueuedPackets + stats.nTotalDroppedPacketsBeforeEnqueue);
        CHECK(stats.nTotalEnqueuedPackets == stats.nTotalDequeuedPackets + m_disc->GetNPackets());
        CHECK(stats.nTotalEnqueuedBytes == stats.nTotalDequeuedBytes + m_disc->GetNBytes());
        CHECK(stats.nTotalSentPackets + stats.nTotalDroppedPacketsAfterDequeue == stats.nTotalDequeuedPackets);
        // they are the scheduler's
        CHECK(stats.nTotalEnqueuedPackets == totals.accepted && stats.nTotalEnqueuedBytes == totals.accepted_bytes);
        CHECK(stats.nTotalSentPackets == totals.sent && stats.nTotalSentBytes == totals.sent_bytes);
        CHECK(stats.nTotalDroppedBytesAfterDequeue == totals.dropped_bytes);
        CHECK(stats.GetNDroppedPackets(MaltcoveQueueDisc::TARGET_EXCEEDED_DROP) == totals.dropped_codel);
        CHECK(stats.GetNDroppedPackets(MaltcoveQueueDisc::OVERLIMIT_DROP) == totals.dropped_overflow);
        CHECK(stats.GetNMarkedPackets(MaltcoveQueueDisc::TARGET_EXCEEDED_MARK) == totals.marked);
        CHECK(stats.GetNMarkedPackets(MaltcoveQueueDisc::CE_THRESHOLD_EXCEEDED_MARK) == totals.threshold_marked);
        CHECK(m_disc->GetNPackets() == totals.queued && m_disc->GetNBytes() == totals.queued_bytes);
    }

    Ptr<MaltcoveQueueDisc> m_disc;
    maltcove m_beside MALTCOVE_INIT;
    std::vector<Ptr<QueueDiscItem>> m_items;
    std::map<Ptr<const QueueDiscItem>, uint64_t> m_numbers;
    std::vector<std::pair<uint64_t, bool>> m_lost;
};

/** One step: some items come, or one leaves. */
void
Step(Pair* pair, Ptr<UniformRandomVariable> random)
{
    if (random->GetInteger(0, 99) < 56)
    {
        pair->Dequeue();
        return;
    }
    for (uint32_t n = random->GetInteger(1, random->GetInteger(0, 300) ? 2 : 200); n > 0; n--)
    {
        const uint32_t flows = random->GetInteger(0, 2) ? 2 : 19;
        const auto number = static_cast<uint8_t>(random->GetInteger(0, flows));
        pair->Enqueue({number, number % 2 == 1, static_cast<uint8_t>(number % 4)}, random->GetInteger(50, 1400));
    }
}

void
TestCounts()
{
    auto random = CreateObject<UniformRandomVariable>();
    Pair pair(200000);
    double moment = 0;
    for (int i = 0; i < 30000; i++)
    {
        moment += random->GetInteger(0, 1000) ? random->GetValue(0, 1000) : 500000;
        Simulator::Schedule(MicroSeconds(static_cast<uint64_t>(moment)), &Step, &pair, random);
    }
    Simulator::Run();
    pair.CheckUse();
    Simulator::Destroy();
}

/** The attributes that FqCoDelQueueDisc has too have its types and standard values. */
void
TestAttributes()
{
    const TypeId ours = MaltcoveQueueDisc::GetTypeId();
    const TypeId theirs = FqCoDelQueueDisc::GetTypeId();
    uint32_t same = 0;
    for (size_t i = 0; i < ours.GetAttributeN(); i++)
    {
        const TypeId::AttributeInformation mine = ours.GetAttribute(i);
        TypeId::AttributeInformation other;
        if (!theirs.LookupAttributeByName(mine.name, &other))
        {
            CHECK(mine.name == "Mtu" || mine.name == "MemoryLimit");
            continue;
        }
        CHECK(mine.checker->GetValueTypeName() == other.checker->GetValueTypeName());
        CHECK(mine.initialValue->SerializeToString(mine.checker) ==
              other.initialValue->SerializeToString(other.checker));
        same++;
    }
    CHECK(same == 8);
    std::printf("attributes: 8 as FqCoDelQueueDisc has them\n");
}

/** With a filter, items of one flow leave in their order, and an item that it doesn't know is dropped. */
void
TestFilter()
{
    auto disc = CreateObject<MaltcoveQueueDisc>();
    disc->SetQuantum(1500);
    disc->AddPacketFilter(CreateObject<LengthFilter>());
    disc->Initialize();
    CHECK(!disc->Enqueue(MakeItem({1, false, 0}, 101)));
    CHECK(disc->GetStats().GetNDroppedPackets(MaltcoveQueueDisc::UNCLASSIFIED_DROP) == 1);
    // three items of 1000 bytes are one flow, though their ports differ; one of 100 is another
    const uint32_t lengths[] = {1000, 1000, 1000, 100};
    for (uint8_t i = 0; i < 4; i++)
    {
        CHECK(disc->Enqueue(MakeItem({i, false, 0}, lengths[i] - HEADER_V4)));
    }
    // 1500 bytes are two items of the first flow, and then the other has its turn
    const uint32_t order[] = {1000, 1000, 100, 1000};
    for (uint32_t length : order)
    {
        CHECK(disc->Dequeue()->GetSize() == length);
    }
    CHECK(disc->Dequeue() == nullptr && disc->GetTotals().accepted == 4);
    disc->Dispose();
    Simulator::Destroy();
    std::printf("filter: flows are those of the filter\n");
}

/** What waits at the end goes with the disc. */
void
TestDispose()
{
    auto disc = CreateObject<MaltcoveQueueDisc>();
    disc->SetQuantum(1500);
    disc->Initialize();
    Ptr<QueueDiscItem> item = MakeItem({1, true, 0}, 100);
    CHECK(disc->Enqueue(item));
    CHECK(item->GetReferenceCount() == 2);
    disc->Dispose();
    disc = nullptr;
    CHECK(item->GetReferenceCount() == 1);
    Simulator::Destroy();
    std::printf("dispose: no item is kept\n");
}

} // namespace

int
main()
{
    TestAttributes();
    TestCounts();
    TestFilter();
    TestDispose();
    return 0;
}

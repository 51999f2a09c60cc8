/*
 * maltcove-queue-disc.cc: a queue disc for ns-3 over the scheduler Maltcove.
 */
#include "maltcove-queue-disc.h"

#include "maltcove-store.h"

#include "ns3/abort.h"
#include "ns3/ipv4-queue-disc-item.h"
#include "ns3/ipv6-queue-disc-item.h"
#include "ns3/log.h"
#include "ns3/net-device-queue-interface.h"
#include "ns3/simulator.h"
#include "ns3/string.h"
#include "ns3/uinteger.h"
#include "ns3/boolean.h"

#include <algorithm>
#include <sstream>

namespace ns3
{

NS_LOG_COMPONENT_DEFINE("MaltcoveQueueDisc");
NS_OBJECT_ENSURE_REGISTERED(MaltcoveQueueDisc);

namespace
{

constexpr int32_t NO_FLOW = -1;
constexpr uint8_t TCP = 6;
constexpr uint8_t UDP = 17;

/** The library's moments are whole microseconds. */
uint64_t
Moment()
{
    return static_cast<uint64_t>(Simulator::Now().GetMicroSeconds());
}

/** The ports stand first in the payload of TCP and UDP. */
void
ReadPorts(Ptr<QueueDiscItem> item, maltcove_packet& packet)
{
    uint8_t head[4];
    if ((packet.proto == TCP || packet.proto == UDP) && item->GetPacket()->CopyData(head, 4) == 4)
    {
        packet.sport = static_cast<uint16_t>(head[0] << 8 | head[1]);
        packet.dport = static_cast<uint16_t>(head[2] << 8 | head[3]);
    }
}

/** All fragments of a datagram are one flow, so they have no ports. */
bool
ReadIpv4(Ptr<QueueDiscItem> item, maltcove_packet& packet)
{
    auto ipv4 = DynamicCast<Ipv4QueueDiscItem>(item);
    if (!ipv4)
    {
        return false;
    }
    const Ipv4Header& header = ipv4->GetHeader();
    packet.version = 4;
    packet.proto = header.GetProtocol();
    packet.ecn = static_cast<uint8_t>(header.GetEcn());
    header.GetSource().Serialize(packet.src);
    header.GetDestination().Serialize(packet.dst);
    if (header.IsLastFragment() && header.GetFragmentOffset() == 0)
    {
        ReadPorts(item, packet);
    }
    return true;
}

/** ns-3 keeps extension headers in the payload: the flow of such a packet is by addresses and that header's number. */
bool
ReadIpv6(Ptr<QueueDiscItem> item, maltcove_packet& packet)
{
    auto ipv6 = DynamicCast<Ipv6QueueDiscItem>(item);
    if (!ipv6)
    {
        return false;
    }
    const Ipv6Header& header = ipv6->GetHeader();
    packet.version = 6;
    packet.proto = header.GetNextHeader();
    packet.ecn = static_cast<uint8_t>(header.GetEcn());
    header.GetSource().Serialize(packet.src);
    header.GetDestination().Serialize(packet.dst);
    ReadPorts(item, packet);
    return true;
}

} // namespace

TypeId
MaltcoveQueueDisc::GetTypeId()
{
    static TypeId tid =
        TypeId("ns3::MaltcoveQueueDisc")
            .SetParent<QueueDisc>()
            .SetGroupName("TrafficControl")
            .AddConstructor<MaltcoveQueueDisc>()
            .AddAttribute("UseEcn",
                          "True to use ECN (packets are marked instead of being dropped)",
                          BooleanValue(true),
                          MakeBooleanAccessor(&MaltcoveQueueDisc::m_useEcn),
                          MakeBooleanChecker())
            .AddAttribute("CeThreshold",
                          "Packets that waited longer than this are marked; off by the greatest time",
                          TimeValue(Time::Max()),
                          MakeTimeAccessor(&MaltcoveQueueDisc::m_ceThreshold),
                          MakeTimeChecker())
            .AddAttribute("Interval",
                          "CoDel's interval of each flow",
                          StringValue("100ms"),
                          MakeStringAccessor(&MaltcoveQueueDisc::m_interval),
                          MakeStringChecker())
            .AddAttribute("Target",
                          "CoDel's target of each flow",
                          StringValue("5ms"),
                          MakeStringAccessor(&MaltcoveQueueDisc::m_target),
                          MakeStringChecker())
            .AddAttribute("MaxSize",
                          "How many packets may wait",
                          QueueSizeValue(QueueSize("10240p")),
                          MakeQueueSizeAccessor(&QueueDisc::SetMaxSize, &QueueDisc::GetMaxSize),
                          MakeQueueSizeChecker())
            .AddAttribute("Flows",
                          "How many flows there are",
                          UintegerValue(1024),
                          MakeUintegerAccessor(&MaltcoveQueueDisc::m_flows),
                          MakeUintegerChecker<uint32_t>(1, 65536))
            .AddAttribute("DropBatchSize",
                          "How many packets the flow with most bytes loses at most, at an overflow",
                          UintegerValue(64),
                          MakeUintegerAccessor(&MaltcoveQueueDisc::m_dropBatchSize),
                          MakeUintegerChecker<uint32_t>(1, 1048576))
            .AddAttribute("Perturbation",
                          "The seed of the hash that finds an item's flow",
                          UintegerValue(0),
                          MakeUintegerAccessor(&MaltcoveQueueDisc::m_perturbation),
                          MakeUintegerChecker<uint32_t>())
            .AddAttribute("Mtu",
                          "CoDel drops nothing while a flow has as many bytes at most; 0 is the device's MTU",
                          UintegerValue(0),
                          MakeUintegerAccessor(&MaltcoveQueueDisc::m_mtu),
                          MakeUintegerChecker<uint32_t>(0, 65535))
            .AddAttribute("MemoryLimit",
                          "How many bytes may wait; 0 is no limit",
                          UintegerValue(0),
                          MakeUintegerAccessor(&MaltcoveQueueDisc::m_memoryLimit),
                          MakeUintegerChecker<uint64_t>(0, uint64_t{1} << 40));
    return tid;
}

MaltcoveQueueDisc::MaltcoveQueueDisc()
    : QueueDisc(QueueDiscSizePolicy::MULTIPLE_QUEUES, QueueSizeUnit::PACKETS),
      m_quantum(0),
      m_scheduler MALTCOVE_INIT
{
}

MaltcoveQueueDisc::~MaltcoveQueueDisc()
{
    maltcove_free(&m_scheduler);
}

void
MaltcoveQueueDisc::DoDispose()
{
    // the items are the store's, and the base class disposes of it
    maltcove_free(&m_scheduler);
    m_store = nullptr;
    QueueDisc::DoDispose();
}

void
MaltcoveQueueDisc::SetQuantum(uint32_t quantum)
{
    m_quantum = quantum;
}

uint32_t
MaltcoveQueueDisc::GetQuantum() const
{
    return m_quantum;
}

maltcove_totals_t
MaltcoveQueueDisc::GetTotals() const
{
    maltcove_totals_t totals;
    const int answer = maltcove_totals(&m_scheduler, &totals);
    NS_ABORT_MSG_UNLESS(answer == MALTCOVE_OK, maltcove_strerror(answer));
    return totals;
}

int
MaltcoveQueueDisc::Hand(Ptr<QueueDiscItem> item, uint64_t tag, int32_t flow, maltcove_admitted& admitted)
{
    maltcove_packet packet{};
    packet.tag = tag;
    packet.len = item->GetSize();
    if (!ReadIpv4(item, packet) && !ReadIpv6(item, packet))
    {
        // ARP and others: ns-3's own hash of the item says which are one flow
        const uint32_t hash = item->Hash(m_perturbation);
        packet.version = 4;
        packet.sport = static_cast<uint16_t>(hash >> 16);
        packet.dport = static_cast<uint16_t>(hash);
    }
    if (flow == NO_FLOW)
    {
        return maltcove_enqueue(&m_scheduler, Moment(), &packet, &admitted);
    }
    return maltcove_enqueue_flow(&m_scheduler, Moment(), static_cast<uint32_t>(flow), packet.len, packet.ecn, tag,
                                 &admitted);
}

bool
MaltcoveQueueDisc::DoEnqueue(Ptr<QueueDiscItem> item)
{
    int32_t flow = NO_FLOW;
    if (GetNPacketFilters() > 0)
    {
        flow = Classify(item);
        if (flow == PacketFilter::PF_NO_MATCH)
        {
            DropBeforeEnqueue(item, UNCLASSIFIED_DROP);
            return false;
        }
    }
    maltcove_admitted admitted;
    const int answer = Hand(item, m_store->NextPlace(), flow, admitted);
    if (answer != MALTCOVE_OK)
    {
        NS_LOG_DEBUG("refused: " << maltcove_strerror(answer));
        DropBeforeEnqueue(item, REFUSED_DROP);
        return false;
    }
    m_store->Put(item);
    if (admitted.drops > 0)
    {
        ReadDrops();
    }
    return true;
}

void
MaltcoveQueueDisc::ReadDrops()
{
    maltcove_dropped dropped[64];
    int64_t count;
    while ((count = maltcove_drops(&m_scheduler, dropped, 64)) > 0)
    {
        for (int64_t i = 0; i < count; i++)
        {
            const bool byCodel = dropped[i].cause == MALTCOVE_BY_CODEL;
            DropAfterDequeue(m_store->Take(dropped[i].tag), byCodel ? TARGET_EXCEEDED_DROP : OVERLIMIT_DROP);
        }
    }
}

Ptr<QueueDiscItem>
MaltcoveQueueDisc::DoDequeue()
{
    maltcove_sent sent;
    const int answer = maltcove_dequeue(&m_scheduler, Moment(), &sent);
    NS_ABORT_MSG_UNLESS(answer == MALTCOVE_OK || answer == MALTCOVE_IDLE, maltcove_strerror(answer));
    if (sent.drops > 0)
    {
        ReadDrops();
    }
    if (answer == MALTCOVE_IDLE)
    {
        return nullptr;
    }
    Ptr<QueueDiscItem> item = m_store->Take(sent.tag);
    if (sent.mark != MALTCOVE_NO_MARK)
    {
        const bool byCodel = sent.mark == MALTCOVE_CODEL_MARK;
        NS_ABORT_UNLESS(Mark(item, byCodel ? TARGET_EXCEEDED_MARK : CE_THRESHOLD_EXCEEDED_MARK));
    }
    return item;
}

uint32_t
MaltcoveQueueDisc::DeviceMtu() const
{
    Ptr<NetDeviceQueueInterface> queues = GetNetDeviceQueueInterface();
    Ptr<NetDevice> device = queues ? queues->GetObject<NetDevice>() : nullptr;
    return device ? device->GetMtu() : 0;
}

bool
MaltcoveQueueDisc::CheckConfig()
{
    if (GetNQueueDiscClasses() > 0)
    {
        NS_LOG_ERROR("MaltcoveQueueDisc cannot have classes");
        return false;
    }
    if (GetNInternalQueues() > 0)
    {
        NS_LOG_ERROR("MaltcoveQueueDisc cannot have internal queues but its own");
        return false;
    }
    if (m_quantum == 0)
    {
        m_quantum = DeviceMtu();
    }
    if (m_mtu == 0)
    {
        m_mtu = DeviceMtu();
    }
    if (m_quantum == 0)
    {
        NS_LOG_ERROR("The quantum is not set, and there is no device whose MTU it could be");
        return false;
    }
    m_store = CreateObject<MaltcoveStore>();
    m_store->SetMaxSize(QueueSize(QueueSizeUnit::PACKETS, GetMaxSize().GetValue() + 1));
    AddInternalQueue(m_store);
    return true;
}

std::string
MaltcoveQueueDisc::Words() const
{
    std::ostringstream words;
    words << "limit " << GetMaxSize().GetValue() << " flows " << m_flows << " quantum " << m_quantum << " mtu " << m_mtu
          << " target " << Time(m_target).GetMicroSeconds() << "us interval " << Time(m_interval).GetMicroSeconds()
          << "us drop_batch " << m_dropBatchSize << (m_useEcn ? " ecn" : " noecn");
    if (m_ceThreshold < Time::Max())
    {
        words << " ce_threshold " << m_ceThreshold.GetMicroSeconds() << "us";
    }
    if (m_memoryLimit > 0)
    {
        words << " memory_limit " << m_memoryLimit;
    }
    if (GetNPacketFilters() > 0)
    {
        words << " classify dport";
    }
    return words.str();
}

void
MaltcoveQueueDisc::InitializeParams()
{
    const std::string words = Words();
    uint8_t seed[16] = {};
    for (int i = 0; i < 4; i++)
    {
        seed[i] = static_cast<uint8_t>(m_perturbation >> (24 - 8 * i));
    }
    maltcove_fault fault;
    const int answer = maltcove_open(&m_scheduler, words.data(), words.size(), seed, sizeof seed, &fault);
    NS_ABORT_MSG_UNLESS(answer == MALTCOVE_OK,
                        "MaltcoveQueueDisc: " << maltcove_strerror(answer) << ": word " << fault.place << " of '"
                                              << words << "': " << maltcove_fault_text(fault.kind));
}

} // namespace ns3

/*
 * dumbbell.cc: several TCP flows and a UDP flow like a ping's share a link, behind one of several queue discs. It
 * prints a row of what came of it.
 *
 *   dumbbell --queue=maltcove|fqcodel|fifo [--flows=4] [--seconds=60] [--ecn] [--rate=10Mbps] [--seed=1] [--header]
 *
 * Experiments: --exactRoot gives ns-3's CoDel an exact root; --mtu sets Maltcove's Mtu, --minBytes CoDel's MinBytes.
 */
#include "exact-root.h"
#include "maltcove-queue-disc.h"

#include "ns3/applications-module.h"
#include "ns3/core-module.h"
#include "ns3/internet-module.h"
#include "ns3/network-module.h"
#include "ns3/point-to-point-module.h"
#include "ns3/traffic-control-module.h"

#include <algorithm>
#include <cmath>
#include <cstdio>
#include <string>
#include <vector>

using namespace ns3;

namespace
{

struct Options
{
    std::string queue{"maltcove"};
    std::string rate{"10Mbps"};
    uint32_t flows{4};
    double seconds{60};
    uint32_t seed{1};
    uint32_t mtu{0};
    uint32_t minBytes{0};
    bool ecn{false};
    bool exactRoot{false};
    bool header{false};
};

/** Times in milliseconds, of which percentiles are asked. */
class Times
{
  public:
    void Add(Time time)
    {
        m_times.push_back(time.GetSeconds() * 1e3);
    }

    /** The nearest rank: the least member that so large a part is at most. */
    double At(double part)
    {
        if (m_times.empty())
        {
            return NAN;
        }
        std::sort(m_times.begin(), m_times.end());
        const auto rank = static_cast<size_t>(std::ceil(part * static_cast<double>(m_times.size())));
        return m_times[std::max<size_t>(rank, 1) - 1];
    }

    size_t Count() const
    {
        return m_times.size();
    }

  private:
    std::vector<double> m_times;
};

Times g_oneWay;  //!< of the packets of UDP that arrived
Times g_sojourn; //!< of all packets in the queue disc

void
NoteArrival(Ptr<const Packet> packet)
{
    SeqTsHeader header;
    packet->Copy()->RemoveHeader(header);
    g_oneWay.Add(Simulator::Now() - header.GetTs());
}

void
NoteSojourn(Time time)
{
    g_sojourn.Add(time);
}

void
SetDefaults(const Options& options)
{
    RngSeedManager::SetSeed(1);
    RngSeedManager::SetRun(options.seed);
    Config::SetDefault("ns3::TcpL4Protocol::SocketType", TypeIdValue(TypeId::LookupByName("ns3::TcpCubic")));
    Config::SetDefault("ns3::TcpSocket::SegmentSize", UintegerValue(1448));
    Config::SetDefault("ns3::TcpSocket::SndBufSize", UintegerValue(4 << 20));
    Config::SetDefault("ns3::TcpSocket::RcvBufSize", UintegerValue(4 << 20));
    Config::SetDefault("ns3::TcpSocket::InitialCwnd", UintegerValue(10));
    Config::SetDefault("ns3::TcpSocketBase::UseEcn", StringValue(options.ecn ? "On" : "Off"));
    Config::SetDefault("ns3::DropTailQueue<Packet>::MaxSize", QueueSizeValue(QueueSize("100p")));
    if (options.minBytes > 0)
    {
        Config::SetDefault("ns3::CoDelQueueDisc::MinBytes", UintegerValue(options.minBytes));
    }
    NS_ABORT_MSG_IF(options.exactRoot && !UseExactRoot(), "the root can't be replaced on this machine");
}

Ptr<QueueDisc>
InstallQueue(const Options& options, Ptr<NetDevice> device)
{
    TrafficControlHelper helper;
    if (options.queue == "maltcove")
    {
        helper.SetRootQueueDisc("ns3::MaltcoveQueueDisc", "UseEcn", BooleanValue(options.ecn), "Mtu",
                                UintegerValue(options.mtu), "Perturbation", UintegerValue(options.seed));
    }
    else if (options.queue == "fqcodel")
    {
        helper.SetRootQueueDisc("ns3::FqCoDelQueueDisc", "UseEcn", BooleanValue(options.ecn), "Perturbation",
                                UintegerValue(options.seed));
    }
    else
    {
        NS_ABORT_MSG_UNLESS(options.queue == "fifo", "--queue is maltcove, fqcodel or fifo");
        helper.SetRootQueueDisc("ns3::FifoQueueDisc", "MaxSize", QueueSizeValue(QueueSize("1000p")));
    }
    Ptr<QueueDisc> disc = helper.Install(device).Get(0);
    disc->TraceConnectWithoutContext("SojournTime", MakeCallback(&NoteSojourn));
    return disc;
}

/** The network: hosts on the left send to hosts on the right over one narrow link. */
class Dumbbell
{
  public:
    explicit Dumbbell(const Options& options)
        : m_options(options)
    {
        m_routers.Create(2);
        m_left.Create(options.flows + 1);
        m_right.Create(options.flows + 1);
        InternetStackHelper().InstallAll();
        PointToPointHelper neck;
        neck.SetDeviceAttribute("DataRate", StringValue(options.rate));
        neck.SetChannelAttribute("Delay", StringValue("8ms"));
        neck.SetQueue("ns3::DropTailQueue<Packet>", "MaxSize", StringValue("1p"));
        NetDeviceContainer devices = neck.Install(m_routers.Get(0), m_routers.Get(1));
        m_disc = InstallQueue(options, devices.Get(0));
        Ipv4AddressHelper("10.1.0.0", "255.255.255.0").Assign(devices);
        for (uint32_t i = 0; i <= options.flows; i++)
        {
            Attach(i);
        }
        Ipv4GlobalRoutingHelper::PopulateRoutingTables();
    }

    /** TCP begins in the first two seconds, each flow at a moment that the seed chooses. */
    void InstallTraffic()
    {
        auto random = CreateObject<UniformRandomVariable>();
        for (uint32_t i = 0; i < m_options.flows; i++)
        {
            BulkSendHelper bulk("ns3::TcpSocketFactory", InetSocketAddress(m_addresses[i], 5001));
            ApplicationContainer sender = bulk.Install(m_left.Get(i));
            sender.Start(Seconds(random->GetValue(0.1, 2)));
            sender.Stop(Seconds(m_options.seconds));
            PacketSinkHelper sink("ns3::TcpSocketFactory", InetSocketAddress(Ipv4Address::GetAny(), 5001));
            m_sinks.Add(sink.Install(m_right.Get(i)));
        }
        UdpServerHelper server(9);
        ApplicationContainer servers = server.Install(m_right.Get(m_options.flows));
        servers.Get(0)->TraceConnectWithoutContext("Rx", MakeCallback(&NoteArrival));
        UdpClientHelper client(m_addresses[m_options.flows], 9);
        client.SetAttribute("MaxPackets", UintegerValue(1U << 30));
        client.SetAttribute("Interval", TimeValue(MilliSeconds(20)));
        client.SetAttribute("PacketSize", UintegerValue(100));
        m_pings = client.Install(m_left.Get(m_options.flows));
        m_pings.Start(Seconds(random->GetValue(0.05, 0.07)));
        m_pings.Stop(Seconds(m_options.seconds - 2));
    }

    void PrintRow()
    {
        double sum = 0;
        double squares = 0;
        for (uint32_t i = 0; i < m_options.flows; i++)
        {
            const double bits = 8.0 * static_cast<double>(DynamicCast<PacketSink>(m_sinks.Get(i))->GetTotalRx());
            sum += bits;
            squares += bits * bits;
        }
        const uint64_t sent = DynamicCast<UdpClient>(m_pings.Get(0))->GetTotalTx() / 100;
        const QueueDisc::Stats& stats = m_disc->GetStats();
        std::printf("%s,%d,%u,%u,%.3f,%.4f,%.2f,%.2f,%.2f,%.2f,%llu,%.2f,%.2f,%u,%u\n", Name().c_str(),
                    m_options.ecn ? 1 : 0, m_options.flows, m_options.seed, sum / 1e6 / m_options.seconds,
                    sum * sum / (m_options.flows * squares), g_oneWay.At(0.5), g_oneWay.At(0.95), g_oneWay.At(0.99),
                    g_oneWay.At(1),
                    static_cast<unsigned long long>(sent - g_oneWay.Count()), g_sojourn.At(0.5), g_sojourn.At(0.99),
                    stats.nTotalDroppedPackets, stats.nTotalMarkedPackets);
    }

    /** What ns-3 counted is what the scheduler counted. */
    void CheckCounts() const
    {
        auto disc = DynamicCast<MaltcoveQueueDisc>(m_disc);
        if (!disc)
        {
            return;
        }
        const QueueDisc::Stats& stats = m_disc->GetStats();
        const maltcove_totals_t totals = disc->GetTotals();
        NS_ABORT_UNLESS(totals.accepted == stats.nTotalEnqueuedPackets);
        NS_ABORT_UNLESS(totals.dropped_codel + totals.dropped_overflow == stats.nTotalDroppedPacketsAfterDequeue);
        NS_ABORT_UNLESS(totals.marked + totals.threshold_marked == stats.nTotalMarkedPackets);
        NS_ABORT_UNLESS(totals.queued == disc->GetNPackets() && totals.queued_bytes == disc->GetNBytes());
    }

  private:
    /** The queue, with what an experiment changed in it. */
    std::string Name() const
    {
        std::string name = m_options.queue;
        name += m_options.exactRoot ? " exactRoot" : "";
        name += m_options.mtu > 0 ? " mtu=" + std::to_string(m_options.mtu) : "";
        name += m_options.minBytes > 0 ? " minBytes=" + std::to_string(m_options.minBytes) : "";
        return name;
    }

    /** A host on either side, with links of 100 Mbit/s. */
    void Attach(uint32_t i)
    {
        PointToPointHelper access;
        access.SetDeviceAttribute("DataRate", StringValue("100Mbps"));
        access.SetChannelAttribute("Delay", StringValue("1ms"));
        NetDeviceContainer left = access.Install(m_left.Get(i), m_routers.Get(0));
        NetDeviceContainer right = access.Install(m_routers.Get(1), m_right.Get(i));
        const std::string number = std::to_string(i);
        Ipv4AddressHelper(("10.2." + number + ".0").c_str(), "255.255.255.0").Assign(left);
        Ipv4AddressHelper far(("10.3." + number + ".0").c_str(), "255.255.255.0");
        m_addresses.push_back(far.Assign(right).GetAddress(1));
    }

    Options m_options;
    NodeContainer m_routers;
    NodeContainer m_left;
    NodeContainer m_right;
    std::vector<Ipv4Address> m_addresses;
    ApplicationContainer m_sinks;
    ApplicationContainer m_pings;
    Ptr<QueueDisc> m_disc;
};

} // namespace

int
main(int argc, char** argv)
{
    Options options;
    CommandLine line(__FILE__);
    line.AddValue("queue", "maltcove, fqcodel or fifo", options.queue);
    line.AddValue("rate", "of the narrow link", options.rate);
    line.AddValue("flows", "of TCP, up to 250", options.flows);
    line.AddValue("seconds", "that are simulated", options.seconds);
    line.AddValue("seed", "of ns-3's random numbers (RngRun), and of the flow hash", options.seed);
    line.AddValue("ecn", "senders and the queue use ECN", options.ecn);
    line.AddValue("mtu", "Maltcove's Mtu; 0 is the device's", options.mtu);
    line.AddValue("minBytes", "MinBytes of ns-3's CoDel; 0 is its standard", options.minBytes);
    line.AddValue("exactRoot", "ns-3's CoDel computes an exact root", options.exactRoot);
    line.AddValue("header", "print the names of the row's fields alone", options.header);
    line.Parse(argc, argv);
    if (options.header)
    {
        std::printf("queue,ecn,flows,seed,goodput_mbit,jain,one_way_p50_ms,one_way_p95_ms,one_way_p99_ms,"
                    "one_way_most_ms,udp_lost,sojourn_p50_ms,sojourn_p99_ms,drops,marks\n");
        return 0;
    }
    SetDefaults(options);
    Dumbbell dumbbell(options);
    dumbbell.InstallTraffic();
    Simulator::Stop(Seconds(options.seconds));
    Simulator::Run();
    dumbbell.PrintRow();
    dumbbell.CheckCounts();
    Simulator::Destroy();
    return 0;
}

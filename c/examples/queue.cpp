// A queue of buffers in C++: a buffer that is accepted goes through the scheduler as a tag, and comes back as it is sent,
// dropped or flushed. A buffer that is refused stays with the caller.
#include <maltcove.h>

#include <cstdint>
#include <cstdio>
#include <memory>
#include <optional>
#include <random>
#include <stdexcept>
#include <string>
#include <utility>

struct Buffer {
	std::string text;
};

class Queue {
public:
	explicit Queue(const std::string &words)
	{
		std::random_device random;
		std::uint8_t seed[16];
		for (auto &byte : seed)
			byte = static_cast<std::uint8_t>(random());
		maltcove_fault fault{};
		const int answer = maltcove_open(&m_, words.data(), words.size(), seed, sizeof seed, &fault);
		if (answer == MALTCOVE_BAD_WORDS)
			throw std::invalid_argument("parameter word " + std::to_string(fault.place) + " is wrong");
		if (answer != MALTCOVE_OK)
			throw std::runtime_error(maltcove_strerror(answer));
	}

	// The library owns the struct's bytes while it is open, so a queue stays where it is.
	Queue(const Queue &) = delete;
	Queue &operator=(const Queue &) = delete;

	~Queue()
	{
		maltcove_flushed flushed;
		while (maltcove_flush(&m_, &flushed, 1) > 0)
			take(flushed.tag);
		read_drops();
		maltcove_free(&m_);
	}

	// Hands in a buffer, and says whether it was accepted. One that wasn't is still the caller's.
	bool put(std::uint64_t now_us, std::unique_ptr<Buffer> &buffer)
	{
		maltcove_packet packet{};
		packet.tag = reinterpret_cast<std::uintptr_t>(buffer.get());
		packet.len = static_cast<std::uint32_t>(buffer->text.size());
		packet.proto = 17;
		packet.version = 4;
		maltcove_admitted admitted;
		if (maltcove_enqueue(&m_, now_us, &packet, &admitted) != MALTCOVE_OK)
			return false;
		(void)buffer.release();
		// The buffer that came may be among those that were dropped for it.
		read_drops();
		return true;
	}

	// The next buffer to send, if any, and its ECN field.
	std::optional<std::pair<std::unique_ptr<Buffer>, std::uint8_t>> get(std::uint64_t now_us)
	{
		maltcove_sent sent;
		const int answer = maltcove_dequeue(&m_, now_us, &sent);
		if (answer < 0)
			throw std::runtime_error(maltcove_strerror(answer));
		// CoDel may have dropped packets, also where none is sent.
		read_drops();
		if (answer == MALTCOVE_IDLE)
			return std::nullopt;
		return std::make_pair(take(sent.tag), sent.ecn);
	}

private:
	static std::unique_ptr<Buffer> take(std::uint64_t tag)
	{
		return std::unique_ptr<Buffer>(reinterpret_cast<Buffer *>(static_cast<std::uintptr_t>(tag)));
	}

	void read_drops()
	{
		maltcove_dropped dropped;
		while (maltcove_drops(&m_, &dropped, 1) > 0)
			std::printf("dropped: %s\n", take(dropped.tag)->text.c_str());
	}

	maltcove m_ = MALTCOVE_INIT;
};

int main()
{
	try {
		Queue queue("limit 2 drop_batch 1");
		for (const char *text : { "first", "second", "third" }) {
			auto buffer = std::make_unique<Buffer>(Buffer{ text });
			if (!queue.put(0, buffer))
				std::printf("refused: %s\n", buffer->text.c_str());
		}
		auto late = std::make_unique<Buffer>(Buffer{ "" });
		if (!queue.put(1, late))
			std::printf("refused: a buffer without bytes\n");
		if (auto sent = queue.get(1500))
			std::printf("sent: %s\n", sent->first->text.c_str());
		// What still waits is freed with the queue.
	} catch (const std::exception &error) {
		std::fprintf(stderr, "%s\n", error.what());
		return 1;
	}
	return 0;
}

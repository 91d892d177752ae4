// Works a stream of limit orders through QuickFIX's order matcher, and says how long an order took.
// It is compiled beside the matcher's own files, which Debian ships as an example; see beside-quickfix.
// An order is what the example's Application makes of a message: an Order with its texts, inserted, matched, and its updates taken off the queue.
#include "OrderMatcher.h"

#include <chrono>
#include <cstdio>
#include <iostream>
#include <queue>
#include <string>
#include <vector>

struct Limit
{
  Order::Side side;
  double price;
  long lots;
};

int main()
{
  std::vector<Limit> limits;
  std::string side;
  long hundredths, lots;
  while (std::cin >> side >> hundredths >> lots)
    limits.push_back(Limit{side == "buy" ? Order::buy : Order::sell, hundredths / 100.0, lots});

  OrderMatcher matcher;
  std::queue<Order> updates;
  long told = 0;
  auto start = std::chrono::steady_clock::now();
  for (size_t i = 0; i < limits.size(); i++)
  {
    const Limit& limit = limits[i];
    Order order(std::to_string(i + 1), "VIBR", "FIRM1", "VENUE", limit.side, Order::limit, limit.price, limit.lots);
    matcher.insert(order);
    matcher.match(order.getSymbol(), updates);
    for (; updates.size(); updates.pop())
      told++;
  }
  auto took = std::chrono::duration_cast<std::chrono::nanoseconds>(std::chrono::steady_clock::now() - start).count();
  // (a trade tells of both its orders)
  std::printf("%zu orders, %ld trades\n", limits.size(), told / 2);
  std::fprintf(stderr, "%lld ns an order\n", static_cast<long long>(took) / static_cast<long long>(limits.size() ? limits.size() : 1));
}

/**
 * @file j1939.hpp
 * @brief The handles of j1939.h for C++11 and later: each closes itself where it ends, and is moved, never copied.
 *
 * SPDX-License-Identifier: MIT OR Apache-2.0
 *
 * The calls are those of C, and take what .get() answers: j1939_listener_feed(listener.get(), &frame, &message).
 */
#ifndef J1939_HPP
#define J1939_HPP

#include "j1939.h"

#include <utility>

namespace j1939 {

/** A handle, empty until its .._new opens it. */
template <typename Part, int32_t (*close)(Part *)> class Handle {
public:
    Handle() = default;
    ~Handle() { close(&part); }
    Handle(Handle &&other) noexcept { std::swap(part, other.part); }
    Handle &operator=(Handle &&other) noexcept {
        std::swap(part, other.part);
        return *this;
    }

    /** For the calls of j1939.h. */
    Part *get() noexcept { return &part; }
    const Part *get() const noexcept { return &part; }

private:
    Part part = J1939_EMPTY;
};

using Listener = Handle<j1939_listener, j1939_listener_close>;
using Assembler = Handle<j1939_assembler, j1939_assembler_close>;
using Receiver = Handle<j1939_receiver, j1939_receiver_close>;
using Sender = Handle<j1939_sender, j1939_sender_close>;
using Controller = Handle<j1939_controller, j1939_controller_close>;
using Answers = Handle<j1939_answers, j1939_answers_close>;
using Outbox = Handle<j1939_outbox, j1939_outbox_close>;

} // namespace j1939
#endif

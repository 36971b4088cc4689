/**
 * @file j1939.h
 * @brief The proved SAE J1939 stack, for programs in C11 and C++.
 *
 * SPDX-License-Identifier: MIT OR Apache-2.0
 *
 * What the calls promise is proved, for every input that keeps to the rules below. Each call's contract is in the
 * sources of the library, in the crate j39_c, whose README says it in words.
 *
 * Answers. A call answers below 0 where it did nothing, and why: one of the J1939_ codes. Then what it was handed is
 * as it was; only for a controller time may have passed. 0 says that there is no more to say, and 1 and above what
 * stands in the parameters that it wrote to. A call's answers stand behind its @return; what it doesn't write at one of
 * them is as it was. J1939_NULL comes of each call with a pointer, and isn't named there.
 *
 * What a call answers, or writes to a field, has a named enum where it is one of several. In a switch over
 * (enum j1939_news)answer the compiler's -Wswitch finds the one that is forgotten.
 *
 * Where two apply. J1939_NULL goes first. A call that opens a handle answers J1939_IN_USE before J1939_BAD_VALUE, and
 * that before J1939_NO_MEMORY. Each other call answers J1939_BAD_VALUE for a frame, a moment, a group of 2^18 and above,
 * an acknowledgment or a kept answer out of its range before J1939_NO_PART, and that before all the rest.
 *
 * Storage. j1939_node, j1939_claims, j1939_peers and j1939_broadcast are plain data in your own memory: make them by their .._init.
 * They take no memory besides, need no close, and may be copied. A j1939_controller, j1939_answers, a j1939_outbox, a
 * j1939_listener, a j1939_assembler, a j1939_receiver and a j1939_sender are handles: set one to J1939_EMPTY, open it by its .._new,
 * close it by its .._close. What it holds lies on the heap, or, where it is opened by its .._at in place of .._new, in memory
 * of yours; it is the library's, and a call that takes a const handle changes nothing of it. Frames, messages, readings
 * and texts are your own, and are copied.
 *
 * A j1939_controller is a node, a receiver, a sender and its broadcasts in one. Take the others where you write a loop
 * of your own, or listen only.
 *
 * What you owe, since no library can test it:
 *  - a pointer that is not NULL points to memory of its type, or of the size that you say (NULL is tested);
 *  - the memory of two parameters that are written to does not overlap;
 *  - a handle was set to J1939_EMPTY, or written by the library last; an open one is neither copied nor written by
 *    you, but moved: copied once, and the old one set to J1939_EMPTY, with no call between;
 *  - one call at a time on the same handle, node, claims or peers; none from a signal handler, while one may be running;
 *  - memory that you hand to .._at isn't read, written or moved till the handle is closed;
 *  - malloc, realloc and free may be called by several threads at once, where you call from several; on a board where
 *    a handle is opened by .._at, one call at a time on all handles.
 *
 * Times are microseconds from any moment on, below 10^16; a time that goes back counts as no time passed. Addresses
 * are 0 to 253; 254 is the null address, 255 all. Sections are those of SAE J1939-21 (data link), -71 (application),
 * -73 (diagnostics) and -81 (network management).
 */
#ifndef J1939_H
#define J1939_H

#include <stddef.h>
#include <stdint.h>

#ifdef __cplusplus
extern "C" {
#endif

/** Before a field of 64 bits: the structs are the same on every machine, also where such a field needs no 8 bytes. */
#ifdef __cplusplus
#define J1939_ALIGNED alignas(8)
#else
#define J1939_ALIGNED _Alignas(8)
#endif

/** The version of the library that this header is of. */
#define J1939_VERSION "0.2.0"

/** Why a call did nothing. */
enum j1939_refusal {
    J1939_BAD_VALUE = -1, /**< a number is out of its range */
    J1939_NO_PART = -2,   /**< the handle is empty, or holds another kind of part */
    J1939_NO_MEMORY = -3, /**< memory is refused */
    J1939_IN_USE = -4,    /**< the handle is open */
    J1939_NO_ROOM = -5,   /**< the text does not fit */
    J1939_END = -6,       /**< there are no more */
    J1939_NULL = -7,      /**< a pointer is NULL */
    J1939_NO_ADDRESS = -8, /**< the controller holds no address */
    J1939_FULL = -9        /**< as many wait as there is room for */
};

/** A frame (J1939-21, 5.2). */
typedef struct {
    J1939_ALIGNED uint64_t micros; /**< when it was seen or is sent, below 10^16 */
    uint32_t id;                   /**< its identifier, of 29 bits, with no flags */
    uint8_t len;                   /**< how many bytes of data it has, 0 to 8 */
    uint8_t data[8];               /**< its data; what stands behind the first len bytes is not read */
} j1939_frame;

/** The most bytes of a message. */
#define J1939_LONGEST 1785

/** A message, of one frame or put together of packets (J1939-21, 5.10). */
typedef struct {
    J1939_ALIGNED uint64_t micros; /**< the moment of its last frame */
    uint64_t name;                 /**< the NAME of its sender, where is_named is not 0 */
    uint32_t pgn;                  /**< its group, of 18 bits */
    uint16_t len;                  /**< how many bytes it has, 0 to 1785 */
    uint8_t source;                /**< the address that sent it */
    uint8_t is_named;              /**< 0 where no claim tells who sent it */
    uint8_t data[J1939_LONGEST];   /**< its bytes */
    uint8_t is_addressed;          /**< 0 where no destination is told */
    uint8_t destination;           /**< the address it was sent to, 255 for all, where is_addressed is not 0 */
} j1939_message;

/* ---- identifiers and NAMEs */

/** The fields of an identifier (J1939-21, 5.2). */
typedef struct {
    uint32_t pgn;        /**< the group, of 18 bits */
    uint8_t priority;    /**< 0 (the highest) to 7 */
    uint8_t source;      /**< the source address */
    uint8_t destination; /**< the destination; 255 for groups that have none */
} j1939_id_fields;

/** Reads the fields of an identifier; J1939_BAD_VALUE for one of 2^29 and above.
 * @return 0, J1939_BAD_VALUE */
int32_t j1939_id_split(uint32_t id, j1939_id_fields *fields);

/** Composes the identifier of these fields; J1939_BAD_VALUE for a priority above 7, a group of 2^18 and above, and
 * a group of PF below 240 whose low byte is not 0. For PF 240 and above the destination is not used.
 * @return 0, J1939_BAD_VALUE */
int32_t j1939_id_compose(const j1939_id_fields *fields, uint32_t *id);

/** The fields of a NAME (J1939-81, 4.1.1). */
typedef struct {
    uint32_t identity;         /**< the identity number, of 21 bits */
    uint16_t manufacturer;     /**< the manufacturer code, of 11 bits */
    uint8_t arbitrary;         /**< 1 where the controller may claim another address than its preferred one, else 0 */
    uint8_t industry;          /**< the industry group, 0 to 7 */
    uint8_t system_instance;   /**< the vehicle system instance, 0 to 15 */
    uint8_t system;            /**< the vehicle system, 0 to 127 */
    uint8_t reserved;          /**< the reserved bit */
    uint8_t function;          /**< the function */
    uint8_t function_instance; /**< the function instance, 0 to 31 */
    uint8_t ecu_instance;      /**< the ECU instance, 0 to 7 */
} j1939_name_fields;

/** Reads the fields of a NAME.
 * @return 0 */
int32_t j1939_name_split(uint64_t name, j1939_name_fields *fields);

/** Composes the NAME of these fields; J1939_BAD_VALUE where one is too large for its bits.
 * @return 0, J1939_BAD_VALUE */
int32_t j1939_name_compose(const j1939_name_fields *fields, uint64_t *name);

/* ---- readings (J1939-71) */

/** What a reading is. */
enum j1939_reading_kind {
    J1939_NUMBER = 0,    /**< a number */
    J1939_ON = 1,        /**< a switch that is on */
    J1939_OFF = 2,       /**< a switch that is off */
    J1939_ERROR = 3,     /**< the sender reports an error */
    J1939_RESERVED = 4,  /**< a raw value in the reserved range */
    J1939_INDICATOR = 5, /**< a raw value in the range of indicators */
    J1939_TEXT = 6       /**< a text */
};

/** A reading: a parameter and its value. */
typedef struct {
    J1939_ALIGNED int64_t number; /**< of a number: its value, in units of the last decimal place; else 0 */
    uint32_t spn;                 /**< the parameter */
    uint8_t kind;                 /**< J1939_NUMBER and so on */
    uint8_t places;               /**< of a number: how many decimal places it has; else 0 */
    char unit[8];                 /**< of a number: its unit, ended by a zero; else zeros */
} j1939_reading;

/** Reads reading number index of a message, from 0 on, by the built-in table. J1939_END behind the last, and for a
 * group that the table lacks; J1939_BAD_VALUE for a group of 2^18 and above, or more than 1785 bytes.
 * @return 0, J1939_BAD_VALUE, J1939_END */
int32_t j1939_read(const j1939_message *message, size_t index, j1939_reading *reading);

/** Writes out the text of reading number index, as the command report prints it, with no zero at its end: its length.
 * J1939_NO_ROOM where the text is longer than room (7,142 bytes are always enough), and the answers below 0 of
 * j1939_read.
 * @return 0 to room, J1939_BAD_VALUE, J1939_NO_MEMORY, J1939_NO_ROOM, J1939_END */
int32_t j1939_read_text(const j1939_message *message, size_t index, char *text, size_t room);

/** Writes out the line of reading number index, as the command report prints it, with its newline: its length. J1939_BAD_VALUE also for
 * a moment of 10^16 and above. The lines of a message are those of 0, 1 and so on until J1939_END.
 * @return 0 to room, J1939_BAD_VALUE, J1939_NO_MEMORY, J1939_NO_ROOM, J1939_END */
int32_t j1939_report_line(const j1939_message *message, size_t index, char *text, size_t room);

/** A table of parameters of your own: its text, lines as the command groups prints them (docs/FORMATS.md). The text stays yours, and
 * has to stay as it is while the table is used; it may lie in read-only memory. Nothing has to be closed. */
typedef struct {
    const char *text; /**< of j1939_table_init */
    size_t size;      /**< how many bytes it has */
} j1939_table;

/** Where a text is wrong that is no table. Columns are 1 PGN, 2 group, 3 SPN, 4 place, 5 step, 6 offset, 7 unit, 8 name and 9 states. */
typedef struct {
    uint32_t line;  /**< the first wrong line, from 1 on; 0 of a text of more than 1048576 bytes */
    uint8_t column; /**< its first wrong column; 0 of such a text, and of a line behind 65536 rows */
} j1939_wrong;

/** Makes a table of a text. J1939_BAD_VALUE for one that is none: then *wrong says where, and the table stays as it was.
 * @return 0, J1939_BAD_VALUE */
int32_t j1939_table_init(j1939_table *table, const char *text, size_t size, j1939_wrong *wrong);

/** j1939_read by a table of your own, whose lines are read each time. A listener hears its groups in single frames by
 * j1939_listener_feed_as. J1939_NO_ROOM where the unit has more than seven bytes.
 * @return 0, J1939_BAD_VALUE, J1939_NO_ROOM, J1939_END */
int32_t j1939_read_by(const j1939_table *table, const j1939_message *message, size_t index, j1939_reading *reading);

/** j1939_read_text by a table of your own.
 * @return 0 to room, J1939_BAD_VALUE, J1939_NO_MEMORY, J1939_NO_ROOM, J1939_END */
int32_t j1939_read_text_by(const j1939_table *table, const j1939_message *message, size_t index, char *text, size_t room);

/** j1939_report_line by a table of your own.
 * @return 0 to room, J1939_BAD_VALUE, J1939_NO_MEMORY, J1939_NO_ROOM, J1939_END */
int32_t j1939_report_line_by(const j1939_table *table, const j1939_message *message, size_t index, char *text,
                             size_t room);

/** The raw number of a value of a parameter, in units of its last decimal place: 1 and the number, or 0 where there is
 * none: the parameter is no number, or the value is off its steps or its valid range. A reading of the parameter tells
 * its places: an engine speed (190) has three, so 1,500 rpm are 1500000.
 * @return 0, 1 */
int32_t j1939_raw_of(uint32_t spn, int64_t value, uint32_t *raw);

/* ---- trouble codes (J1939-73, 5.7) */

/** A trouble code (J1939-73, 5.7.1). */
typedef struct {
    uint32_t spn;       /**< the parameter; by conversion method 1, by version 3 of the older ones */
    uint32_t version_1; /**< by conversion method 1, by version 1; else as spn */
    uint32_t version_2; /**< by conversion method 1, by version 2; else as spn */
    uint8_t fmi;        /**< what is wrong with it, 0 to 31 */
    uint8_t count;      /**< how often it came, 0 to 126; 127 where that is not available */
    uint8_t conversion; /**< the conversion method, 0 or 1: its maker knows by which version */
} j1939_fault;

/** Reads trouble code number index, from 0 on, of a message of DM1 (65226), DM2 (65227), DM6 (65231), DM12 (65236), DM23
 * (64949), DM27 (64898) or DM28 (64896). J1939_END behind the last, and for another group; J1939_BAD_VALUE as of j1939_read.
 * @return 0, J1939_BAD_VALUE, J1939_END */
int32_t j1939_fault_at(const j1939_message *message, size_t index, j1939_fault *fault);

/** Whether a lamp is on. */
enum j1939_lamp_state { J1939_LAMP_OFF = 0, J1939_LAMP_ON = 1, J1939_LAMP_RESERVED = 2, J1939_LAMP_NOT_AVAILABLE = 3 };

/** How a lamp flashes. */
enum j1939_lamp_flash {
    J1939_FLASH_SLOW = 0,     /**< once a second */
    J1939_FLASH_FAST = 1,     /**< twice a second or more */
    J1939_FLASH_RESERVED = 2, /**< reserved */
    J1939_FLASH_STEADY = 3    /**< it doesn't flash */
};

/** A lamp. */
typedef struct {
    uint8_t state; /**< J1939_LAMP_OFF and so on */
    uint8_t flash; /**< J1939_FLASH_SLOW and so on */
} j1939_lamp;

/** The lamps of a message of trouble codes. */
typedef struct {
    j1939_lamp malfunction; /**< of emissions */
    j1939_lamp red;         /**< the red stop lamp */
    j1939_lamp amber;       /**< the amber warning lamp */
    j1939_lamp protect;     /**< the protect lamp */
} j1939_lamps;

/** Reads the lamps of a message of the same groups. J1939_END for another group, and for less than two bytes.
 * @return 0, J1939_BAD_VALUE, J1939_END */
int32_t j1939_lamps_of(const j1939_message *message, j1939_lamps *lamps);

/** The most codes of j1939_faults_message. */
#define J1939_MOST_FAULTS 64

/** Writes out what a message of DM1, DM2 or their kin has for these lamps and codes, in their order, by conversion method 0: its
 * length, 8 to 258 bytes. J1939_BAD_VALUE for
 * more than J1939_MOST_FAULTS codes, a lamp's state or flash above 3, and a code that can't be told: by another conversion method, of
 * an SPN of 2^19 and above, an FMI above 31, a count above 127, or with SPN and FMI 0, which says that there is none. Only spn,
 * fmi, count and conversion of a code are read. Where count is 0, faults must not be NULL.
 * @return 0 to room, J1939_BAD_VALUE, J1939_NO_ROOM */
int32_t j1939_faults_message(const j1939_lamps *lamps, const j1939_fault *faults, size_t count, uint8_t *payload,
                             size_t room);

/* ---- names, built in: of 1 to 80 bytes of ASCII, with no zero at the end */

/** Writes out what a parameter is called: the name's length. J1939_NO_ROOM where it is longer than room; J1939_END where no
 * name is known.
 * @return 0 to room, J1939_NO_ROOM, J1939_END */
int32_t j1939_parameter_name(uint32_t spn, char *text, size_t room);

/** The same of a group: its short name, as EEC1.
 * @return 0 to room, J1939_NO_ROOM, J1939_END */
int32_t j1939_group_name(uint32_t pgn, char *text, size_t room);

/** The same of a function of a NAME, below 128 (J1939-81, 4.1.1).
 * @return 0 to room, J1939_NO_ROOM, J1939_END */
int32_t j1939_function_name(uint8_t function, char *text, size_t room);

/** The same of who makes a controller, by the manufacturer code of its NAME.
 * @return 0 to room, J1939_NO_ROOM, J1939_END */
int32_t j1939_maker_name(uint16_t manufacturer, char *text, size_t room);

/** Writes out what is wrong by a failure mode identifier (FMI), as the command faults prints it: the text's length.
 * @return 0 to room, J1939_NO_ROOM */
int32_t j1939_failure_name(uint8_t fmi, char *text, size_t room);

/* ---- broadcasts (J1939-21, 5.10.1 to 5.10.2) */

/** Frame number k of the broadcast of these bytes, at a moment: 1 and the frame (0 is the announcement), 0 behind the
 * last packet. J1939_BAD_VALUE outside 9 to 1785 bytes, for a source above 253, a group of 2^18 and above, or a moment
 * of 10^16 and above. Leave 50 to 200 ms between two frames.
 * @return 0, 1, J1939_BAD_VALUE */
int32_t j1939_cut_frame(uint8_t source, uint32_t pgn, const uint8_t *payload, size_t size, uint16_t k, uint64_t micros,
                        j1939_frame *out);

/** How far a broadcast is: plain data. */
typedef struct {
    J1939_ALIGNED uint64_t due; /**< from when on its next frame may be sent */
    uint16_t count;             /**< how many of its frames were sent */
} j1939_broadcast;

/** Nothing of a broadcast was sent.
 * @return 0 */
int32_t j1939_broadcast_init(j1939_broadcast *broadcast);

/** What to do at a moment for the broadcast of these bytes, the same at each call: 1 where out is to be sent now, 0 to
 * ask again at due, 2 where all was sent. Two frames stand 50 ms apart or more. J1939_BAD_VALUE as from
 * j1939_cut_frame.
 * @return 0 to 2, J1939_BAD_VALUE */
int32_t j1939_broadcast_poll(j1939_broadcast *broadcast, uint8_t source, uint32_t pgn, const uint8_t *payload,
                             size_t size, uint64_t micros, j1939_frame *out, uint64_t *due);

/* ---- who holds which address (J1939-81, 4.2.2) */

/** Who holds which address. What stands in it is the library's. */
typedef struct {
    J1939_ALIGNED uint64_t names[254];
    uint8_t are_held[254];
} j1939_claims;

/** Nobody holds an address.
 * @return 0 */
int32_t j1939_claims_init(j1939_claims *claims);

/** Notes a frame, of any group: how many addresses have another holder by it, which stand in changed then, rising;
 * J1939_BAD_VALUE for a frame that is out of range.
 * @return 0 to 2, J1939_BAD_VALUE */
int32_t j1939_claims_note(j1939_claims *claims, const j1939_frame *frame, uint8_t changed[2]);

/** Who holds an address: 1 and the NAME, or 0 where no claim tells it, and for 254 and 255.
 * @return 0, 1 */
int32_t j1939_claims_holder(const j1939_claims *claims, uint8_t address, uint64_t *name);

/* ---- a node's own address (J1939-81, 4.2 and 4.5) */

/** A node that claims an address and keeps it. What stands in it is the library's. */
typedef struct {
    uint64_t name;
    uint8_t preferred, kind, address;
    J1939_ALIGNED uint64_t moment;
    j1939_claims claims;
} j1939_node;

/** How far a node is. */
enum j1939_status { J1939_IDLE = 0, J1939_CLAIMING = 1, J1939_HOLDING = 2, J1939_CANNOT = 3 };

/** An idle node of this NAME, to start with this address; J1939_BAD_VALUE for an address above 253.
 * @return 0, J1939_BAD_VALUE */
int32_t j1939_node_init(j1939_node *node, uint64_t name, uint8_t preferred);

/** Claims the preferred address, where the node is idle: 1 where *out is to be sent, else 0.
 * @return 0, 1, J1939_BAD_VALUE */
int32_t j1939_node_start(j1939_node *node, uint64_t micros, j1939_frame *out);

/** Makes a claimed address the node's own, 250 ms or more after it began to claim it.
 * @return 0, J1939_BAD_VALUE */
int32_t j1939_node_tick(j1939_node *node, uint64_t micros);

/** Hears a frame, of any group, at the frame's own moment: 1 where *out is to be sent, else 0.
 * @return 0, 1, J1939_BAD_VALUE */
int32_t j1939_node_on(j1939_node *node, const j1939_frame *frame, j1939_frame *out);

/** Claims the address that the node of this NAME is commanded to take: 1 where *out is to be sent, else 0. A command to
 * another NAME, of an address above 253 or to an idle node is ignored.
 * @return 0, 1, J1939_BAD_VALUE */
int32_t j1939_node_commanded(j1939_node *node, uint64_t name, uint8_t address, uint64_t micros, j1939_frame *out);

/** J1939_IDLE and so on, and the address that is claimed or held, 254 where there is none. While it is not
 * J1939_HOLDING, send nothing but what the node's calls say.
 * @return 0 to 3 */
int32_t j1939_node_status(const j1939_node *node, uint8_t *address);

/* ---- handles */

/** What a handle points to is the library's: 0, or an address in 64 bits. */
typedef struct {
    J1939_ALIGNED uint64_t part; /**< what it holds */
    uint64_t memory;             /**< where that lies, if it was opened by its .._at */
} j1939_handle;

typedef struct {
    j1939_handle handle;
} j1939_listener;

typedef struct {
    j1939_handle handle;
} j1939_receiver;

typedef struct {
    j1939_handle handle;
} j1939_sender;

typedef struct {
    j1939_handle handle;
} j1939_assembler;

typedef struct {
    j1939_handle handle;
} j1939_controller;

typedef struct {
    j1939_handle handle;
} j1939_answers;

typedef struct {
    j1939_handle handle;
} j1939_outbox;

/** A handle that holds nothing. */
/* clang-format off */
#define J1939_EMPTY {{0, 0}}
/* clang-format on */

/* How many bytes .._at wants for each kind of handle, wherever they begin; .._size answers the same of the library that a program is
 * linked with. A listener's and an assembler's have room for so many messages in packets that are open at once, the one handed out
 * last among them, at most 271; a sender's for so many bytes of a message, a controller's for so many broadcasts, sessions and transfers,
 * and unless these are 0 for one broadcast of its own; answers' for so many requests that are open at once, an outbox's for so many
 * messages and requests whose end isn't told. No call with such a handle takes other memory. */
/* clang-format off */
#define J1939_LISTENER_SIZE(messages) (6720 + 1824 * (size_t)(messages))
#define J1939_ASSEMBLER_SIZE(messages) (4416 + 1824 * (size_t)(messages))
#define J1939_RECEIVER_SIZE ((size_t)1984)
#define J1939_SENDER_SIZE(bytes) (192 + (size_t)(bytes))
#define J1939_CONTROLLER_SIZE(broadcasts, sessions, transfers) \
    (5520 + 1888 * (size_t)(broadcasts) + 1936 * (size_t)(sessions) + 1952 * (size_t)(transfers) + 1808 * (size_t)((transfers) != 0))
#define J1939_ANSWERS_SIZE(boxes) (160 + 1864 * (size_t)(boxes))
#define J1939_OUTBOX_SIZE(boxes) (192 + 1888 * (size_t)(boxes))
/* clang-format on */

/* ---- a listener (J1939-21, 5.10; J1939-81, 4.2) */

/** Opens a listener that has heard nothing.
 * @return 0, J1939_NO_MEMORY, J1939_IN_USE */
int32_t j1939_listener_new(j1939_listener *listener);

/** How many bytes .._at wants for so many messages that are open at once. */
size_t j1939_listener_size(size_t messages);

/** Opens such a listener in memory of yours: of less than .._size of 0 messages J1939_NO_MEMORY may come. Where more messages
 * are open than there is room for, .._feed answers it.
 * @return 0, J1939_NO_MEMORY, J1939_IN_USE */
int32_t j1939_listener_at(j1939_listener *listener, void *memory, size_t size);

/** Feeds it the next frame of the bus: 1 where a message is heard at it, which stands in *out then, else 0;
 * J1939_NO_MEMORY at an announcement alone: feed the frame again, or drop it.
 * @return 0, 1, J1939_BAD_VALUE, J1939_NO_PART, J1939_NO_MEMORY */
int32_t j1939_listener_feed(j1939_listener *listener, const j1939_frame *frame, j1939_message *out);

/** The same, where you say whether messages of the frame's group are heard in one frame, as for groups of your own: they are
 * where is_single is not 0, but for claims (60928) and packets (60160, 60416). Those in packets are heard of all groups.
 * @return 0, 1, J1939_BAD_VALUE, J1939_NO_PART, J1939_NO_MEMORY */
int32_t j1939_listener_feed_as(j1939_listener *listener, uint8_t is_single, const j1939_frame *frame,
                               j1939_message *out);

/** Who holds an address, by the claims that it heard: 1 and the NAME, or 0.
 * @return 0, 1, J1939_NO_PART */
int32_t j1939_listener_holder(const j1939_listener *listener, uint8_t address, uint64_t *name);

/** Closes it. Closing an empty one does nothing.
 * @return 0 */
int32_t j1939_listener_close(j1939_listener *listener);

/* ---- messages put together of packets, whoever holds an address (J1939-21, 5.10) */

/** Opens an assembler with no message open.
 * @return 0, J1939_NO_MEMORY, J1939_IN_USE */
int32_t j1939_assembler_new(j1939_assembler *assembler);

/** How many bytes .._at wants for so many messages that are open at once. */
size_t j1939_assembler_size(size_t messages);

/** Opens such an assembler in memory of yours, as j1939_listener_at.
 * @return 0, J1939_NO_MEMORY, J1939_IN_USE */
int32_t j1939_assembler_at(j1939_assembler *assembler, void *memory, size_t size);

/** Feeds it the next frame of the bus: 1 where a message is whole with it, which stands in *out then, of no NAME, else
 * 0; J1939_NO_MEMORY at an announcement alone: feed the frame again, or drop it.
 * @return 0, 1, J1939_BAD_VALUE, J1939_NO_PART, J1939_NO_MEMORY */
int32_t j1939_assembler_feed(j1939_assembler *assembler, const j1939_frame *frame, j1939_message *out);

/** Ends what a source has begun: call it for each address that j1939_claims_note writes out.
 * @return 0, J1939_NO_PART */
int32_t j1939_assembler_forget(j1939_assembler *assembler, uint8_t source);

/** Closes it. Closing an empty one does nothing.
 * @return 0 */
int32_t j1939_assembler_close(j1939_assembler *assembler);

/* ---- the receiving end of directed transfers (J1939-21, 5.10.3) */

/** Opens a receiver at an address, with its buffer of 1.8 kB; J1939_BAD_VALUE for an address above 253.
 * @return 0, J1939_BAD_VALUE, J1939_NO_MEMORY, J1939_IN_USE */
int32_t j1939_receiver_new(j1939_receiver *receiver, uint8_t own);

/** How many bytes .._at wants. */
size_t j1939_receiver_size(void);

/** Opens such a receiver in memory of yours; J1939_NO_MEMORY where it is too small.
 * @return 0, J1939_BAD_VALUE, J1939_NO_MEMORY, J1939_IN_USE */
int32_t j1939_receiver_at(j1939_receiver *receiver, void *memory, size_t size, uint8_t own);

/** Hands it a frame of the bus, of any group, at the frame's own moment: 0; 1 where *out is to be sent; 2 where *out
 * is to be sent and *message is delivered.
 * @return 0 to 2, J1939_BAD_VALUE, J1939_NO_PART */
int32_t j1939_receiver_on(j1939_receiver *receiver, const j1939_frame *frame, j1939_frame *out,
                          j1939_message *message);

/** Lets time pass: 1 where *out is to be sent, else 0. Call it each 10 ms or so.
 * @return 0, 1, J1939_BAD_VALUE, J1939_NO_PART */
int32_t j1939_receiver_tick(j1939_receiver *receiver, uint64_t micros, j1939_frame *out);

/** Whether a session is open: 1 or 0.
 * @return 0, 1, J1939_NO_PART */
int32_t j1939_receiver_busy(const j1939_receiver *receiver);

/** Closes it. Closing an empty one does nothing.
 * @return 0 */
int32_t j1939_receiver_close(j1939_receiver *receiver);

/* ---- the sending end of directed transfers (J1939-21, 5.10.3) */

/** How far a sender is. */
enum j1939_send_state {
    J1939_SEND_IDLE = 0,    /**< it has sent nothing */
    J1939_SEND_WAITING = 1, /**< it waits for an answer */
    J1939_SEND_SENDING = 2, /**< it has packets to send, one a tick */
    J1939_SEND_DONE = 3,    /**< the receiver acknowledged the message */
    J1939_SEND_FAILED = 4   /**< the transfer was aborted, for 3 where the receiver was silent */
};

/** Opens a sender of these bytes from one address to another; J1939_BAD_VALUE outside 9 to 1785 bytes, for an address
 * above 253 or a group of 2^18 and above. The bytes are copied.
 * @return 0, J1939_BAD_VALUE, J1939_NO_MEMORY, J1939_IN_USE */
int32_t j1939_sender_new(j1939_sender *sender, uint8_t source, uint8_t destination, uint32_t pgn,
                         const uint8_t *payload, size_t size);

/** How many bytes .._at wants for a message of so many bytes. */
size_t j1939_sender_size(size_t bytes);

/** Opens such a sender in memory of yours; J1939_NO_MEMORY where it is too small.
 * @return 0, J1939_BAD_VALUE, J1939_NO_MEMORY, J1939_IN_USE */
int32_t j1939_sender_at(j1939_sender *sender, void *memory, size_t size, uint8_t source, uint8_t destination,
                        uint32_t pgn, const uint8_t *payload, size_t bytes);

/** Lets time pass: 1 where *out is to be sent, else 0. It sends at ticks alone.
 * @return 0, 1, J1939_BAD_VALUE, J1939_NO_PART */
int32_t j1939_sender_tick(j1939_sender *sender, uint64_t micros, j1939_frame *out);

/** Shows it a frame of the bus, of any group, at the frame's own moment.
 * @return 0, J1939_BAD_VALUE, J1939_NO_PART */
int32_t j1939_sender_on(j1939_sender *sender, const j1939_frame *frame);

/** J1939_SEND_IDLE and so on, and the reason where it is J1939_SEND_FAILED.
 * @return 0 to 4, J1939_NO_PART */
int32_t j1939_sender_state(const j1939_sender *sender, uint8_t *reason);

/** Closes it. Closing an empty one does nothing.
 * @return 0 */
int32_t j1939_sender_close(j1939_sender *sender);

/* ---- a controller (J1939-21, J1939-81)
 *
 * It claims one address, defends it, and sends and receives from there. A frame is made when it is taken: so what
 * j1939_controller_take_frame hands out is to go out at once. Each moment that is handed in is that of the call, by one
 * clock that isn't set back. The loop:
 *  - at each frame that another controller sent, j1939_controller_hear, and then .._take_received, .._take_request and
 *    .._take_news until they answer 0;
 *  - at the sooner of j1939_controller_next_tick and .._next_due, after each frame that is heard, and after what is
 *    handed in: j1939_controller_tick; then .._take_frame until it answers 0, or, where the driver may have no room,
 *    .._peek_frame first; and then .._take_ended until it answers 0.
 *
 * What it hands out waits for you: 16 messages of one frame, 16 requests, and as many messages in packets to its address,
 * and to all, as .._new was given. What comes beyond is refused, or told by j1939_controller_missed.
 *
 * A call with a handle that holds no controller answers J1939_NO_PART, but for .._new and .._close, and where a frame,
 * a moment, a group or an acknowledgment is out of its range. Where a message is not accepted, by J1939_BAD_VALUE for
 * one of these nothing has changed, and else time alone has passed. J1939_NO_ADDRESS comes where no address is held,
 * before each other J1939_BAD_VALUE; J1939_FULL comes last. */

/** What a controller is made for. What isn't named in an initializer is 0, or NULL. */
typedef struct {
    J1939_ALIGNED uint64_t name;  /**< its NAME */
    uint8_t address;              /**< the address that it will claim, 0 to 253 */
    uint8_t delay;                /**< its word that it can't claim an address waits for delay times 0.6 ms: a number by
                                       chance, so that two that lose at once don't say it at once (J1939-81, 4.2.2) */
    uint8_t broadcasts;           /**< how many broadcasts in packets are heard at once or wait for you, one of each source at
                                       a time: with as many as others announce to all, none is missed for want of a box */
    uint8_t is_subscribed;        /**< not 0 where its program subscribes groups alone: messages of others, of one frame or
                                       broadcast in packets, are neither handed out nor missed. What comes in packets to its
                                       address is handed out in any case, and .._ask hears its answer of any group, unless
                                       that is broadcast in packets */
    uint8_t sessions;             /**< how many messages in packets to its address come in at once, one of each source, or wait
                                       for you; where no box is free, another is refused (abort 2), and all with 0 */
    uint8_t window;               /**< how many packets it lets a sender send at once, by a CTS; 0 sets no limit. What your
                                       driver can't take at once is lost, so 16 fits most */
    uint8_t transfers;            /**< how many messages in packets it sends to others' addresses at once, one to each, until their
                                       ends are taken; with 0 none, and none to all */
    const uint32_t *served;       /**< the groups that its program serves: a request for another is refused */
    size_t served_count;          /**< how many these are, 0 to 16 */
    const uint32_t *subscribed;   /**< the groups that it subscribes, where is_subscribed is not 0 */
    size_t subscribed_count;      /**< how many these are, 0 to 64 */
} j1939_setup;

/** Opens a controller that is made for this. J1939_BAD_VALUE for an address above 253, more groups, or one of 2^18 and above.
 * It takes all its memory here: some 5.4 kB, 1.9 kB for each broadcast, session and transfer, and 1.8 kB for a broadcast of its
 * own, unless transfers is 0.
 * @return 0, J1939_BAD_VALUE, J1939_NO_MEMORY, J1939_IN_USE */
int32_t j1939_controller_new(j1939_controller *controller, const j1939_setup *setup);

/** How many bytes .._at wants for a controller that is made for this; 0 for NULL. */
size_t j1939_controller_size(const j1939_setup *setup);

/** Opens such a controller in memory of yours; J1939_NO_MEMORY where it is too small.
 * @return 0, J1939_BAD_VALUE, J1939_NO_MEMORY, J1939_IN_USE */
int32_t j1939_controller_at(j1939_controller *controller, void *memory, size_t size, const j1939_setup *setup);

/** Shows it a frame that another controller sent, of any group, at the moment of this call. The frame's own stamp may be
 * of another clock: it is handed on with what is received, and is no moment.
 * @return 0, J1939_BAD_VALUE, J1939_NO_PART */
int32_t j1939_controller_hear(j1939_controller *controller, const j1939_frame *frame, uint64_t micros);

/** Lets time pass: so an address comes to be held, a request times out, and of what comes in packets to it, it asks
 * again for what is late, or gives it up; a broadcast that is late ends.
 * @return 0, J1939_BAD_VALUE, J1939_NO_PART */
int32_t j1939_controller_tick(j1939_controller *controller, uint64_t micros);

/** Claims its address anew, and forgets nothing else: after bus-off, or where the interface was down, so that others may
 * have missed its claim, or it theirs. The address is held 250 ms after that claim is taken; what was accepted waits till
 * then. Where it is lost, it says again that it can't claim one. To another such controller the claim is that of a restart:
 * what comes to it in packets from here is over.
 * @return 0, J1939_BAD_VALUE, J1939_NO_PART */
int32_t j1939_controller_again(j1939_controller *controller, uint64_t micros);

/** When the next tick is due, if no frame is heard till then, for what comes in packets or for a request: 1 and the
 * moment, or 0.
 * @return 0, 1, J1939_NO_PART */
int32_t j1939_controller_next_tick(const j1939_controller *controller, uint64_t *due);

/** Takes the frame that goes out now; by this it counts as sent: 1 where *out goes out, else 0. First go claims, then
 * acknowledgments, what it says as a receiver, messages of one frame, broadcasts, and transfers. But of three frames one
 * is neither of the first two, what it says as a receiver takes turns with all behind it, and a frame of a broadcast that
 * is 100 ms late goes before both. The first call claims the address, which is held 250 ms later; till then, and where
 * it is lost, claims alone go out.
 * @return 0, 1, J1939_BAD_VALUE, J1939_NO_PART */
int32_t j1939_controller_take_frame(j1939_controller *controller, uint64_t micros, j1939_frame *out);

/** The frame that .._take_frame would hand out now; nothing changes by it. A driver whose queue may be full takes it
 * once it lies there.
 * @return 0, 1, J1939_BAD_VALUE, J1939_NO_PART */
int32_t j1939_controller_peek_frame(const j1939_controller *controller, uint64_t micros, j1939_frame *out);

/** A request for the claims of all (255), or of an address, from the null address: 1 where *out may go at once, else 0:
 * where an address is held, and for 254. It may go at any moment, before the first claim too. What answers it is shown by
 * .._hear like any claim; then .._free_address tells where to move.
 * @return 0, 1, J1939_BAD_VALUE, J1939_NO_PART */
int32_t j1939_controller_claims_request(const j1939_controller *controller, uint64_t micros, uint8_t to,
                                        j1939_frame *out);

/** Before which moment .._take_frame answers 0, if nothing is heard or handed in till then: 1 and the moment, which is
 * that of the last call where a frame can be taken already; or 0. No time passes by .._peek_frame.
 * @return 0, 1, J1939_NO_PART */
int32_t j1939_controller_next_due(const j1939_controller *controller, uint64_t *due);

/** How far it is with its address at the moment of the last call: J1939_IDLE (its claim, the first or one
 * after .._again or .._move_to, wasn't taken yet), J1939_CLAIMING, J1939_HOLDING, J1939_CANNOT (it was lost), and the address, 254 where there is none.
 * @return 0 to 3, J1939_NO_PART */
int32_t j1939_controller_status(const j1939_controller *controller, uint8_t *address);

/** Who holds an address, by the claims heard and its own that were taken: 1 and the NAME, or 0.
 * @return 0, 1, J1939_NO_PART */
int32_t j1939_controller_holder(const j1939_controller *controller, uint8_t address, uint64_t *name);

/** The address that a NAME holds, by the same claims: 1 and the address, or 0.
 * @return 0, 1, J1939_NO_PART */
int32_t j1939_controller_address_of(const j1939_controller *controller, uint64_t name, uint8_t *address);

/** What a program was told of who is there, and when a frame of each address came last. What stands in it is the library's. */
typedef struct {
    J1939_ALIGNED uint64_t names[254];
    uint64_t moments[254];
    uint8_t are_told[254];
    uint8_t are_heard[254];
} j1939_peers;

/** That an address has another holder than was told last. A NAME that moves leaves one, and comes to another. */
typedef struct {
    J1939_ALIGNED uint64_t was; /**< the NAME that was told to hold it, where had_one is not 0 */
    uint64_t name;              /**< the NAME that holds it, where has_one is not 0 */
    uint8_t address;            /**< 0 to 253 */
    uint8_t had_one;            /**< 0 where nobody was told to hold it */
    uint8_t has_one;            /**< 0 where nobody holds it */
} j1939_peer;

/** Nothing was told or heard.
 * @return 0 */
int32_t j1939_peers_init(j1939_peers *peers);

/** Notes the moment of this call for a frame of any group that is handed to .._hear; its own stamp is not used.
 * @return 0, J1939_BAD_VALUE */
int32_t j1939_peers_hear(j1939_peers *peers, const j1939_frame *frame, uint64_t micros);

/** Takes what is new of who holds which address, by the claims that this controller heard and its own that were taken: 1 and the
 * least address whose holder is not the one told last, or 0. So who comes, moves or leaves is told once; but till this answers 0
 * a NAME that moves may stand at both.
 * @return 0, 1, J1939_NO_PART */
int32_t j1939_peers_take(j1939_peers *peers, const j1939_controller *controller, j1939_peer *peer);

/** Whether a NAME holds an address, by the same claims, whose last noted frame has this moment or a later one: 1, or 0. A frame
 * counts for who holds its source now.
 * @return 0, 1, J1939_BAD_VALUE, J1939_NO_PART */
int32_t j1939_peers_heard_since(const j1939_peers *peers, const j1939_controller *controller, uint64_t name, uint64_t micros);

/** The least address of 128 to 247 that nobody holds, by the same claims: 1 and the address, or 0. A controller that
 * lost its address may move there, if its NAME is arbitrary.
 * @return 0, 1, J1939_NO_PART */
int32_t j1939_controller_free_address(const j1939_controller *controller, uint8_t *address);

/** Begins anew at another address, which it will claim, with what it knows of who holds which, and with nothing else;
 * tokens begin with 0 again. 1 where it does. 0, where nothing changes, for an address above 253, and until all that
 * was accepted is told to have ended, and what was received, requests and news are taken. What else was due is dropped.
 * A command to move (J1939-81, 4.2.3) is received like any message.
 * @return 0, 1, J1939_NO_PART */
int32_t j1939_controller_move_to(j1939_controller *controller, uint8_t address);

/** Hands in a message of 0 to 1785 bytes, to all (255) or to another's address: 1 and its token, which no other has of
 * the first 2^62 of each kind, till it moves. The bytes are copied.
 *  - Up to 8 go in one frame, of a priority 0 (the highest) to 7; a group of PF 240 and above goes to all. J1939_FULL while 16
 *    such, requests too, are accepted and not told by .._take_ended.
 *  - More go in packets, whose frames have priority 7. To all (J1939-21, 5.10.3.5) 50 ms or more from frame to frame, whatever
 *    priority; J1939_FULL while one is accepted and not told, and where the setup has no transfers. To an address (J1939-21,
 *    5.10.3) as that clears them, before those of a larger priority number, by turns with those of the same; J1939_FULL while one to
 *    this address is accepted and not told, or as many are as the setup has transfers; also for 4 s after the end of one of this
 *    group to this address that was not acknowledged, unless it was unsent or refused at once (abort 1, 2), and while twice as many
 *    pairs as transfers wait so.
 * J1939_BAD_VALUE for more bytes, another priority, its own address, 254, a group that no identifier can have, and the groups of
 * claims (60928), acknowledgments (59392) and packets (60160, 60416).
 * @return 0, 1, J1939_BAD_VALUE, J1939_NO_PART, J1939_NO_ADDRESS, J1939_FULL */
int32_t j1939_controller_send(j1939_controller *controller, uint64_t micros, uint8_t priority, uint32_t pgn, uint8_t to,
                              const uint8_t *payload, size_t size, uint64_t *token);

/** Puts a message of 0 to 8 bytes in the place of the last that waits with its priority, group and destination, and is no
 * request, so that the newest value goes: 1, and *token is that of the place, which stays; the older bytes are never sent.
 * 0, where nothing changes, if none waits or the message can't be sent: then hand it in by .._send. J1939_BAD_VALUE for
 * a group of 2^18 and above. Where size is 0, payload must not be NULL.
 * @return 0, 1, J1939_BAD_VALUE, J1939_NO_PART */
int32_t j1939_controller_renew(j1939_controller *controller, uint8_t priority, uint32_t pgn, uint8_t to,
                               const uint8_t *payload, size_t size, uint64_t *token);

/** Withdraws a message of one frame that waits to be taken: 1; it is never sent, and told as J1939_ENDED_WITHDRAWN once all
 * before it have ended. 0, where nothing changes, if none waits under this token, for a request, and where the address is
 * lost, by which all that wait end.
 * @return 0, 1, J1939_NO_PART */
int32_t j1939_controller_withdraw(j1939_controller *controller, uint64_t token);

/** Asks an address, or all (255), for a group (J1939-21, 5.4.2), also for claims (60928): 1 and its token. Under it is
 * told that its frame went out, as of a message of one frame, and how it ended, as of a request. What is sent in
 * answer is received like any message; claims tell .._holder. J1939_FULL while one is accepted and not told, or 16
 * messages are.
 * @return 0, 1, J1939_BAD_VALUE, J1939_NO_PART, J1939_NO_ADDRESS, J1939_FULL */
int32_t j1939_controller_ask(j1939_controller *controller, uint64_t micros, uint32_t pgn, uint8_t to, uint64_t *token);

/** What ended. */
enum j1939_ended_kind {
    J1939_ENDED_MESSAGE = 1,   /**< a message of one frame */
    J1939_ENDED_BROADCAST = 2, /**< a message in packets to all */
    J1939_ENDED_TRANSFER = 3,  /**< one to an address */
    J1939_ENDED_REQUEST = 4    /**< a request */
};

/** How it ended. */
enum j1939_ending {
    J1939_ENDED_DONE = 1,         /**< its frames were taken; a transfer was acknowledged; a group came in answer */
    J1939_ENDED_WITHDRAWN = 2,    /**< the address was lost before, or .._withdraw took it back */
    J1939_ENDED_FAILED = 3,       /**< a transfer was aborted, as detail says: by the receiver for its reason, for 3
                                       where that was silent, for 5 where it cleared nothing new too often; it may have
                                       arrived */
    J1939_ENDED_GONE = 4,         /**< who held the address that a transfer went to no longer does */
    J1939_ENDED_ACKNOWLEDGED = 5, /**< a request was acknowledged, as detail says: J1939_ACK and so on */
    J1939_ENDED_TIMED_OUT = 6     /**< a request had no answer for 1,250 ms after its frame was taken, and none was coming
                                       in packets */
};

/** How something ended that was accepted. */
typedef struct {
    J1939_ALIGNED uint64_t token; /**< its token */
    uint8_t ending;               /**< J1939_ENDED_DONE and so on */
    uint8_t detail;               /**< a reason, or an acknowledgment; else 0 */
} j1939_ended;

/** Takes how something ended, each once: 0 where nothing did; J1939_ENDED_MESSAGE and so on where it stands in *ended.
 * @return 0 to 4, J1939_NO_PART */
int32_t j1939_controller_take_ended(j1939_controller *controller, j1939_ended *ended);

/** What was received. */
enum j1939_received_kind {
    J1939_RECEIVED_FRAME = 1,    /**< a message of 0 to 8 bytes, to all or to its address */
    J1939_RECEIVED_TRANSFER = 2, /**< one in packets to its address */
    J1939_RECEIVED_BROADCAST = 3 /**< one in packets to all */
};

/** Takes a message that was received, each once: 0 where there is none; J1939_RECEIVED_FRAME and so on where it stands
 * in *message: with the NAME that held its source when its last frame was heard, if any, and its destination, which
 * one to all in packets has not. Of J1939_RECEIVED_FRAME alone *priority is written; requests and what the stack itself
 * speaks are none. Of the two others by this there is room for the next.
 * @return 0 to 3, J1939_NO_PART */
int32_t j1939_controller_take_received(j1939_controller *controller, j1939_message *message, uint8_t *priority);

/** How many messages were missed, since 16 lay unread, or no box was free for a broadcast in packets, or it broke off:
 * *count.
 * @return 0, J1939_NO_PART */
int32_t j1939_controller_missed(const j1939_controller *controller, uint64_t *count);

/** A request for a group (J1939-21, 5.4.2). */
typedef struct {
    J1939_ALIGNED uint64_t name; /**< the NAME that held the source when it was heard first, where is_named is not 0 */
    uint32_t pgn;                /**< the group that is asked for, of 18 bits */
    uint8_t source;              /**< the address that asks */
    uint8_t destination;         /**< 255 where all are asked, else the controller's address */
    uint8_t is_named;            /**< 0 where no claim tells who asks */
} j1939_request;

/** Takes a request for a group that the program serves, each once: 1 where there is one, else 0. One that is repeated
 * while it waits is no other. Answer it by the group, to all where all were asked, else to who asked; or by
 * j1939_controller_acknowledge.
 * @return 0, 1, J1939_NO_PART */
int32_t j1939_controller_take_request(j1939_controller *controller, j1939_request *request);

/** How a request is acknowledged (J1939-21, 5.4.4). */
enum j1939_acknowledgment { J1939_ACK = 0, J1939_NACK = 1, J1939_DENIED = 2, J1939_BUSY = 3 };

/** Acknowledges a request to its address, whoever asked. J1939_BAD_VALUE for one to all, which is never acknowledged, another answer,
 * a group of 2^18 and above, or a moment of 10^16 and above. J1939_FULL while 16 are due.
 * @return 0, J1939_BAD_VALUE, J1939_NO_PART, J1939_NO_ADDRESS, J1939_FULL */
int32_t j1939_controller_acknowledge(j1939_controller *controller, uint64_t micros, const j1939_request *request,
                                     uint8_t answer);

/** What happened. */
enum j1939_news {
    J1939_NEWS_LOST = 1,    /**< a smaller NAME claimed its address */
    J1939_NEWS_ANOTHER = 2, /**< another sends from the address that it holds, and no claim */
    J1939_NEWS_MISSED = 3,  /**< messages were missed (j1939_controller_missed) */
    J1939_NEWS_DOUBLED = 4  /**< and more by an address: another of its NAME claims that one */
};

/** Takes what happened, each once: J1939_NEWS_LOST and so on, J1939_NEWS_DOUBLED + address, or 0.
 * @return 0 to 259, J1939_NO_PART */
int32_t j1939_controller_take_news(j1939_controller *controller);

/** Closes it. Closing an empty one does nothing.
 * @return 0 */
int32_t j1939_controller_close(j1939_controller *controller);

/* ---- answers that are kept (J1939-21, 5.4.2 and 5.4.4)
 *
 * Where a program's answer finds no room at once, or isn't there yet, these keep it: take requests by j1939_answers_take_request in
 * place of j1939_controller_take_request. Each is open from then on: till its answer is accepted by the controller, it is refused as
 * busy after 200 ms, or it is dropped, as .._turn says. The loop:
 *  - after j1939_controller_hear, .._take_request until it answers 0, and .._answer for each, at once or later;
 *  - then, after each other .._answer, and once .._due_in is over, .._turn.
 *
 * A handle that holds no answers, or no controller, is answered by J1939_NO_PART, and then both are as they were. */

/** Opens answers with boxes for so many open requests, 0 to 255; none is open yet. It takes all its memory here, 1.9 kB for each.
 * @return 0, J1939_NO_MEMORY, J1939_IN_USE */
int32_t j1939_answers_new(j1939_answers *answers, uint8_t boxes);

/** How many bytes .._at wants for so many boxes. */
size_t j1939_answers_size(uint8_t boxes);

/** Opens such answers in memory of yours; J1939_NO_MEMORY where it is too small.
 * @return 0, J1939_NO_MEMORY, J1939_IN_USE */
int32_t j1939_answers_at(j1939_answers *answers, void *memory, size_t size, uint8_t boxes);

/** Takes the oldest request that waits in the controller, if a box is free: 1, and *request is open from now on; 0 where none waits, or
 * no box is free: then those that wait stay.
 * @return 0, 1, J1939_BAD_VALUE, J1939_NO_PART */
int32_t j1939_answers_take_request(j1939_answers *answers, j1939_controller *controller, uint64_t micros,
                                   j1939_request *request);

/** Keeps these bytes, 0 to 1785, for the oldest open request of this source, destination and group that has no answer yet: 1, or 0 where
 * there is none. The bytes are copied; they go out by the turns behind it. J1939_BAD_VALUE for more bytes, or a group of 2^18 and above.
 * Where size is 0, payload must not be NULL.
 * @return 0, 1, J1939_BAD_VALUE, J1939_NO_PART */
int32_t j1939_answers_answer(j1939_answers *answers, const j1939_request *request, const uint8_t *payload, size_t size);

/** Gives each open request its turn, the oldest first. Its answer is handed in as by j1939_controller_send, with priority 6: to all where
 * all were asked, else to who asked; its end is told by .._take_ended under a token that isn't told here. What has no answer, or finds
 * no room, stays till its 200 ms are over: then it is refused as by j1939_controller_acknowledge with J1939_BUSY, and
 * stays only while there is no room for that; one to all is dropped. So is what can't be sent for another reason.
 * @return 0, J1939_BAD_VALUE, J1939_NO_PART */
int32_t j1939_answers_turn(j1939_answers *answers, j1939_controller *controller, uint64_t micros);

/** In how many microseconds the first 200 ms are over, from the last .._turn on, or the last .._take_request that found a box free: 1 and
 * the time, 0 of which is left where they are over; or 0 where no request is open.
 * @return 0, 1, J1939_NO_PART */
int32_t j1939_answers_due_in(const j1939_answers *answers, uint64_t *micros);

/** Closes it: what was open is forgotten. Closing an empty one does nothing.
 * @return 0 */
int32_t j1939_answers_close(j1939_answers *answers);

/* ---- an outbox: messages and requests to NAMEs (J1939-81, 4.2)
 *
 * Where a program knows another by its NAME, this keeps what is for it till that NAME holds an address and the controller has room. Each
 * is numbered, from 0 on, and how it was settled is told once. The loop:
 *  - .._send and .._ask, at any time;
 *  - in place of j1939_controller_take_frame, .._take_frame until it answers 0, also once .._due_in is over;
 *  - then .._take_settled until it answers 0; each frees a box.
 *
 * A handle that holds no outbox, or no controller, is answered by J1939_NO_PART, and then both are as they were. */

/** Opens an outbox with boxes for so many, 0 to 255; none is kept yet. It takes all its memory here, 1.9 kB for each.
 * @return 0, J1939_NO_MEMORY, J1939_IN_USE */
int32_t j1939_outbox_new(j1939_outbox *outbox, uint8_t boxes);

/** How many bytes .._at wants for so many boxes. */
size_t j1939_outbox_size(uint8_t boxes);

/** Opens such an outbox in memory of yours; J1939_NO_MEMORY where it is too small.
 * @return 0, J1939_NO_MEMORY, J1939_IN_USE */
int32_t j1939_outbox_at(j1939_outbox *outbox, void *memory, size_t size, uint8_t boxes);

/** Keeps a message of 0 to 1785 bytes for a NAME: 1, and *number, which is how many were accepted before it. The bytes are copied.
 * J1939_FULL where each box has one whose end .._take_settled hasn't told. J1939_BAD_VALUE for a priority above 7, more bytes, a group of
 * 2^18 and above or a moment of 10^16 and above; the controller judges a smaller group. In one frame a group of PF 240 and above goes
 * to all. Where size is 0, payload must not be NULL.
 * @return 0, 1, J1939_BAD_VALUE, J1939_NO_PART, J1939_FULL */
int32_t j1939_outbox_send(j1939_outbox *outbox, uint64_t micros, uint64_t name, uint8_t priority, uint32_t pgn,
                          const uint8_t *payload, size_t size, uint64_t *number);

/** Keeps a request to a NAME for a group (J1939-21, 5.4.2): 1, and its number, as .._send.
 * @return 0, 1, J1939_BAD_VALUE, J1939_NO_PART, J1939_FULL */
int32_t j1939_outbox_ask(j1939_outbox *outbox, uint64_t micros, uint64_t name, uint32_t pgn, uint64_t *number);

/** Takes the frame that is to go out: 1 where it stands in *out, else 0. What the controller has due goes first. Else each that is kept,
 * the oldest first, is handed in, as by j1939_controller_send or .._ask, to the address that its NAME holds now, by the claims that the
 * controller heard and its own that were taken, till a frame is due by that: of one frame its own. What finds no room stays. So does, for
 * 1250 ms, what has a NAME without address, or a controller that holds none itself: they count anew from each call at which both hold one.
 * @return 0, 1, J1939_BAD_VALUE, J1939_NO_PART */
int32_t j1939_outbox_take_frame(j1939_outbox *outbox, j1939_controller *controller, uint64_t micros, j1939_frame *out);

/** How one was settled. */
enum j1939_settlement {
    J1939_SETTLED_HANDED_IN = 1, /**< it was handed in: the controller tells how it ends */
    J1939_SETTLED_REFUSED = 2,   /**< the controller refused it, for good or for 1250 ms, as refusal says */
    J1939_SETTLED_GONE = 3       /**< its NAME held no address for 1250 ms */
};

/** One that was settled. */
typedef struct {
    J1939_ALIGNED uint64_t number; /**< its number */
    uint64_t token;  /**< of what was handed in the token, as of j1939_controller_send; else 0 */
    int32_t refusal; /**< of what was refused J1939_NO_ADDRESS, where the controller held none for 1250 ms, or J1939_BAD_VALUE; else 0 */
} j1939_settled;

/** Takes how the next was settled, each once, in their order: 0 where none is left; J1939_SETTLED_HANDED_IN and so on where it stands in
 * *settled. Its box is free from then on.
 * @return 0 to 3, J1939_NO_PART */
int32_t j1939_outbox_take_settled(j1939_outbox *outbox, j1939_settled *settled);

/** In how many microseconds the first 1250 ms are over, from the last .._take_frame that handed one in or answered 0, or the last .._send
 * or .._ask that kept one: 1 and the time, 0 of which is left where they are over; or 0 where none is kept.
 * @return 0, 1, J1939_NO_PART */
int32_t j1939_outbox_due_in(const j1939_outbox *outbox, uint64_t *micros);

/** Closes it: what was kept is forgotten. Closing an empty one does nothing.
 * @return 0 */
int32_t j1939_outbox_close(j1939_outbox *outbox);

#ifdef __cplusplus
}
#endif
#endif

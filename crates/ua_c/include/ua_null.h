/* Null pointers, in C and C++ with GCC or Clang: ua.h includes this, which
 * tools/check_c_header.py --write writes from its declarations. Where a pointer with a length is null, the call takes it
 * as empty if the length is 0, and else answers UA_BAD_ARGUMENT; ua_free(NULL) does nothing.
 * Each of these functions stands in front of the library's function of its name, which is `_given` here. */
#if defined(__GNUC__)

void ua_free_given(struct ua_handle *handle) __asm__("ua_free");
static inline void ua_free(struct ua_handle *handle) __asm__("ua_free_in_front");
static inline void ua_free(struct ua_handle *handle) {
    if (!handle)
        return;
    ua_free_given(handle);
}

uint32_t ua_fetch_given(struct ua_handle *handle, uint8_t *buffer, size_t buffer_len,
    size_t *fetched) __asm__("ua_fetch");
static inline uint32_t ua_fetch(struct ua_handle *handle, uint8_t *buffer, size_t buffer_len,
    size_t *fetched) __asm__("ua_fetch_in_front");
static inline uint32_t ua_fetch(struct ua_handle *handle, uint8_t *buffer, size_t buffer_len,
    size_t *fetched) {
    if (!buffer && buffer_len) {
        *fetched = 0;
        return UA_BAD_ARGUMENT;
    }
    return ua_fetch_given(handle, buffer ? buffer : (uint8_t *)(void *)&buffer_len, buffer_len,
        fetched);
}

uint32_t ua_nodes_new_given(const uint8_t *file, size_t file_len, const uint8_t *url,
    size_t url_len, const uint8_t *application_uri, size_t application_uri_len, const uint8_t *name,
    size_t name_len, uint32_t max_message_size, struct ua_nodes *out, size_t *line,
    uint32_t *reason) __asm__("ua_nodes_new");
static inline uint32_t ua_nodes_new(const uint8_t *file, size_t file_len, const uint8_t *url,
    size_t url_len, const uint8_t *application_uri, size_t application_uri_len, const uint8_t *name,
    size_t name_len, uint32_t max_message_size, struct ua_nodes *out, size_t *line,
    uint32_t *reason) __asm__("ua_nodes_new_in_front");
static inline uint32_t ua_nodes_new(const uint8_t *file, size_t file_len, const uint8_t *url,
    size_t url_len, const uint8_t *application_uri, size_t application_uri_len, const uint8_t *name,
    size_t name_len, uint32_t max_message_size, struct ua_nodes *out, size_t *line,
    uint32_t *reason) {
    if ((!file && file_len) ||
        (!url && url_len) ||
        (!application_uri && application_uri_len) ||
        (!name && name_len)) {
        *line = 0;
        *reason = 0;
        return UA_BAD_ARGUMENT;
    }
    return ua_nodes_new_given(file ? file : (const uint8_t *)(void *)&file_len, file_len,
        url ? url : (const uint8_t *)(void *)&url_len, url_len,
        application_uri ? application_uri : (const uint8_t *)(void *)&application_uri_len,
        application_uri_len, name ? name : (const uint8_t *)(void *)&name_len, name_len,
        max_message_size, out, line, reason);
}

uint32_t ua_node_find_given(struct ua_nodes *nodes, const uint8_t *node, size_t node_len,
    size_t *index) __asm__("ua_node_find");
static inline uint32_t ua_node_find(struct ua_nodes *nodes, const uint8_t *node, size_t node_len,
    size_t *index) __asm__("ua_node_find_in_front");
static inline uint32_t ua_node_find(struct ua_nodes *nodes, const uint8_t *node, size_t node_len,
    size_t *index) {
    if (!node && node_len) {
        *index = 0;
        return UA_BAD_ARGUMENT;
    }
    return ua_node_find_given(nodes, node ? node : (const uint8_t *)(void *)&node_len, node_len,
        index);
}

uint32_t ua_node_set_given(struct ua_nodes *nodes, size_t index, const uint8_t *octets,
    size_t octets_len, const struct ua_reading *reading) __asm__("ua_node_set");
static inline uint32_t ua_node_set(struct ua_nodes *nodes, size_t index, const uint8_t *octets,
    size_t octets_len, const struct ua_reading *reading) __asm__("ua_node_set_in_front");
static inline uint32_t ua_node_set(struct ua_nodes *nodes, size_t index, const uint8_t *octets,
    size_t octets_len, const struct ua_reading *reading) {
    if (!octets && octets_len) {
        return UA_BAD_ARGUMENT;
    }
    return ua_node_set_given(nodes, index, octets ? octets : (const uint8_t *)(void *)&octets_len,
        octets_len, reading);
}

uint32_t ua_node_get_given(struct ua_nodes *nodes, size_t index, uint8_t *buffer, size_t buffer_len,
    size_t *needed, struct ua_reading *reading) __asm__("ua_node_get");
static inline uint32_t ua_node_get(struct ua_nodes *nodes, size_t index, uint8_t *buffer,
    size_t buffer_len, size_t *needed, struct ua_reading *reading) __asm__("ua_node_get_in_front");
static inline uint32_t ua_node_get(struct ua_nodes *nodes, size_t index, uint8_t *buffer,
    size_t buffer_len, size_t *needed, struct ua_reading *reading) {
    if (!buffer && buffer_len) {
        *needed = 0;
        memset(reading, 0, sizeof *reading);
        return UA_BAD_ARGUMENT;
    }
    return ua_node_get_given(nodes, index, buffer ? buffer : (uint8_t *)(void *)&buffer_len,
        buffer_len, needed, reading);
}

uint32_t ua_connection_step_given(struct ua_connection *connection, struct ua_nodes *nodes,
    const uint8_t *piece, size_t piece_len, int64_t moment, size_t *taken, size_t *waiting,
    uint32_t *code) __asm__("ua_connection_step");
static inline uint32_t ua_connection_step(struct ua_connection *connection, struct ua_nodes *nodes,
    const uint8_t *piece, size_t piece_len, int64_t moment, size_t *taken, size_t *waiting,
    uint32_t *code) __asm__("ua_connection_step_in_front");
static inline uint32_t ua_connection_step(struct ua_connection *connection, struct ua_nodes *nodes,
    const uint8_t *piece, size_t piece_len, int64_t moment, size_t *taken, size_t *waiting,
    uint32_t *code) {
    if (!piece && piece_len) {
        *taken = 0;
        *waiting = 0;
        *code = 0;
        return UA_BAD_ARGUMENT;
    }
    return ua_connection_step_given(connection, nodes,
        piece ? piece : (const uint8_t *)(void *)&piece_len, piece_len, moment, taken, waiting,
        code);
}

uint32_t ua_next_written_given(struct ua_connection *connection, struct ua_nodes *nodes,
    size_t *index, uint8_t *buffer, size_t buffer_len, size_t *needed, struct ua_reading *reading)
    __asm__("ua_next_written");
static inline uint32_t ua_next_written(struct ua_connection *connection, struct ua_nodes *nodes,
    size_t *index, uint8_t *buffer, size_t buffer_len, size_t *needed, struct ua_reading *reading)
    __asm__("ua_next_written_in_front");
static inline uint32_t ua_next_written(struct ua_connection *connection, struct ua_nodes *nodes,
    size_t *index, uint8_t *buffer, size_t buffer_len, size_t *needed, struct ua_reading *reading) {
    if (!buffer && buffer_len) {
        *index = 0;
        *needed = 0;
        memset(reading, 0, sizeof *reading);
        return UA_BAD_ARGUMENT;
    }
    return ua_next_written_given(connection, nodes, index,
        buffer ? buffer : (uint8_t *)(void *)&buffer_len, buffer_len, needed, reading);
}

uint32_t ua_server_new_given(const uint8_t *nodes, size_t nodes_len, const struct ua_limits *limits,
    const uint8_t *url, size_t url_len, uint32_t channel, struct ua_handle *out, size_t *line)
    __asm__("ua_server_new");
static inline uint32_t ua_server_new(const uint8_t *nodes, size_t nodes_len,
    const struct ua_limits *limits, const uint8_t *url, size_t url_len, uint32_t channel,
    struct ua_handle *out, size_t *line) __asm__("ua_server_new_in_front");
static inline uint32_t ua_server_new(const uint8_t *nodes, size_t nodes_len,
    const struct ua_limits *limits, const uint8_t *url, size_t url_len, uint32_t channel,
    struct ua_handle *out, size_t *line) {
    if ((!nodes && nodes_len) ||
        (!url && url_len)) {
        *line = 0;
        return UA_BAD_ARGUMENT;
    }
    return ua_server_new_given(nodes ? nodes : (const uint8_t *)(void *)&nodes_len, nodes_len,
        limits, url ? url : (const uint8_t *)(void *)&url_len, url_len, channel, out, line);
}

uint32_t ua_server_step_given(struct ua_handle *handle, const uint8_t *piece, size_t piece_len,
    int64_t moment, size_t *taken, size_t *waiting, uint32_t *code) __asm__("ua_server_step");
static inline uint32_t ua_server_step(struct ua_handle *handle, const uint8_t *piece,
    size_t piece_len, int64_t moment, size_t *taken, size_t *waiting, uint32_t *code)
    __asm__("ua_server_step_in_front");
static inline uint32_t ua_server_step(struct ua_handle *handle, const uint8_t *piece,
    size_t piece_len, int64_t moment, size_t *taken, size_t *waiting, uint32_t *code) {
    if (!piece && piece_len) {
        *taken = 0;
        *waiting = 0;
        *code = 0;
        return UA_BAD_ARGUMENT;
    }
    return ua_server_step_given(handle, piece ? piece : (const uint8_t *)(void *)&piece_len,
        piece_len, moment, taken, waiting, code);
}

uint32_t ua_client_new_given(const struct ua_limits *limits, const uint8_t *url, size_t url_len,
    struct ua_handle *out) __asm__("ua_client_new");
static inline uint32_t ua_client_new(const struct ua_limits *limits, const uint8_t *url,
    size_t url_len, struct ua_handle *out) __asm__("ua_client_new_in_front");
static inline uint32_t ua_client_new(const struct ua_limits *limits, const uint8_t *url,
    size_t url_len, struct ua_handle *out) {
    if (!url && url_len) {
        return UA_BAD_ARGUMENT;
    }
    return ua_client_new_given(limits, url ? url : (const uint8_t *)(void *)&url_len, url_len, out);
}

uint32_t ua_client_take_given(struct ua_handle *handle, const uint8_t *piece, size_t piece_len,
    int64_t moment, size_t *taken, uint32_t *event, uint32_t *id, uint32_t *code)
    __asm__("ua_client_take");
static inline uint32_t ua_client_take(struct ua_handle *handle, const uint8_t *piece,
    size_t piece_len, int64_t moment, size_t *taken, uint32_t *event, uint32_t *id, uint32_t *code)
    __asm__("ua_client_take_in_front");
static inline uint32_t ua_client_take(struct ua_handle *handle, const uint8_t *piece,
    size_t piece_len, int64_t moment, size_t *taken, uint32_t *event, uint32_t *id,
    uint32_t *code) {
    if (!piece && piece_len) {
        *taken = 0;
        *event = 0;
        *id = 0;
        *code = 0;
        return UA_BAD_ARGUMENT;
    }
    return ua_client_take_given(handle, piece ? piece : (const uint8_t *)(void *)&piece_len,
        piece_len, moment, taken, event, id, code);
}

uint32_t ua_client_ask_given(struct ua_handle *handle, const uint8_t *body, size_t body_len,
    uint32_t *id) __asm__("ua_client_ask");
static inline uint32_t ua_client_ask(struct ua_handle *handle, const uint8_t *body, size_t body_len,
    uint32_t *id) __asm__("ua_client_ask_in_front");
static inline uint32_t ua_client_ask(struct ua_handle *handle, const uint8_t *body, size_t body_len,
    uint32_t *id) {
    if (!body && body_len) {
        *id = 0;
        return UA_BAD_ARGUMENT;
    }
    return ua_client_ask_given(handle, body ? body : (const uint8_t *)(void *)&body_len, body_len,
        id);
}

uint32_t ua_dissect_given(const uint8_t *octets, size_t octets_len, uint32_t side, uint8_t *buffer,
    size_t buffer_len, size_t *needed) __asm__("ua_dissect");
static inline uint32_t ua_dissect(const uint8_t *octets, size_t octets_len, uint32_t side,
    uint8_t *buffer, size_t buffer_len, size_t *needed) __asm__("ua_dissect_in_front");
static inline uint32_t ua_dissect(const uint8_t *octets, size_t octets_len, uint32_t side,
    uint8_t *buffer, size_t buffer_len, size_t *needed) {
    if ((!octets && octets_len) ||
        (!buffer && buffer_len)) {
        *needed = 0;
        return UA_BAD_ARGUMENT;
    }
    return ua_dissect_given(octets ? octets : (const uint8_t *)(void *)&octets_len, octets_len,
        side, buffer ? buffer : (uint8_t *)(void *)&buffer_len, buffer_len, needed);
}

uint32_t ua_encode_value_given(const uint8_t *type, size_t type_len, const uint8_t *text,
    size_t text_len, uint8_t *buffer, size_t buffer_len, size_t *needed) __asm__("ua_encode_value");
static inline uint32_t ua_encode_value(const uint8_t *type, size_t type_len, const uint8_t *text,
    size_t text_len, uint8_t *buffer, size_t buffer_len, size_t *needed)
    __asm__("ua_encode_value_in_front");
static inline uint32_t ua_encode_value(const uint8_t *type, size_t type_len, const uint8_t *text,
    size_t text_len, uint8_t *buffer, size_t buffer_len, size_t *needed) {
    if ((!type && type_len) ||
        (!text && text_len) ||
        (!buffer && buffer_len)) {
        *needed = 0;
        return UA_BAD_ARGUMENT;
    }
    return ua_encode_value_given(type ? type : (const uint8_t *)(void *)&type_len, type_len,
        text ? text : (const uint8_t *)(void *)&text_len, text_len,
        buffer ? buffer : (uint8_t *)(void *)&buffer_len, buffer_len, needed);
}

uint32_t ua_decode_value_given(const uint8_t *octets, size_t octets_len, uint8_t *buffer,
    size_t buffer_len, size_t *needed) __asm__("ua_decode_value");
static inline uint32_t ua_decode_value(const uint8_t *octets, size_t octets_len, uint8_t *buffer,
    size_t buffer_len, size_t *needed) __asm__("ua_decode_value_in_front");
static inline uint32_t ua_decode_value(const uint8_t *octets, size_t octets_len, uint8_t *buffer,
    size_t buffer_len, size_t *needed) {
    if ((!octets && octets_len) ||
        (!buffer && buffer_len)) {
        *needed = 0;
        return UA_BAD_ARGUMENT;
    }
    return ua_decode_value_given(octets ? octets : (const uint8_t *)(void *)&octets_len, octets_len,
        buffer ? buffer : (uint8_t *)(void *)&buffer_len, buffer_len, needed);
}

uint32_t ua_value_text_given(const uint8_t *octets, size_t octets_len, uint32_t plain,
    uint8_t *buffer, size_t buffer_len, size_t *needed, size_t *name_size) __asm__("ua_value_text");
static inline uint32_t ua_value_text(const uint8_t *octets, size_t octets_len, uint32_t plain,
    uint8_t *buffer, size_t buffer_len, size_t *needed, size_t *name_size)
    __asm__("ua_value_text_in_front");
static inline uint32_t ua_value_text(const uint8_t *octets, size_t octets_len, uint32_t plain,
    uint8_t *buffer, size_t buffer_len, size_t *needed, size_t *name_size) {
    if ((!octets && octets_len) ||
        (!buffer && buffer_len)) {
        *needed = 0;
        *name_size = 0;
        return UA_BAD_ARGUMENT;
    }
    return ua_value_text_given(octets ? octets : (const uint8_t *)(void *)&octets_len, octets_len,
        plain, buffer ? buffer : (uint8_t *)(void *)&buffer_len, buffer_len, needed, name_size);
}

uint32_t ua_text_value_given(const uint8_t *type, size_t type_len, const uint8_t *text,
    size_t text_len, uint32_t plain, uint8_t *buffer, size_t buffer_len, size_t *needed,
    uint32_t *reason) __asm__("ua_text_value");
static inline uint32_t ua_text_value(const uint8_t *type, size_t type_len, const uint8_t *text,
    size_t text_len, uint32_t plain, uint8_t *buffer, size_t buffer_len, size_t *needed,
    uint32_t *reason) __asm__("ua_text_value_in_front");
static inline uint32_t ua_text_value(const uint8_t *type, size_t type_len, const uint8_t *text,
    size_t text_len, uint32_t plain, uint8_t *buffer, size_t buffer_len, size_t *needed,
    uint32_t *reason) {
    if ((!type && type_len) ||
        (!text && text_len) ||
        (!buffer && buffer_len)) {
        *needed = 0;
        *reason = 0;
        return UA_BAD_ARGUMENT;
    }
    return ua_text_value_given(type ? type : (const uint8_t *)(void *)&type_len, type_len,
        text ? text : (const uint8_t *)(void *)&text_len, text_len, plain,
        buffer ? buffer : (uint8_t *)(void *)&buffer_len, buffer_len, needed, reason);
}

uint32_t ua_get_endpoints_request_given(const uint8_t *url, size_t url_len, int64_t moment,
    uint32_t request, uint8_t *buffer, size_t buffer_len, size_t *needed)
    __asm__("ua_get_endpoints_request");
static inline uint32_t ua_get_endpoints_request(const uint8_t *url, size_t url_len, int64_t moment,
    uint32_t request, uint8_t *buffer, size_t buffer_len, size_t *needed)
    __asm__("ua_get_endpoints_request_in_front");
static inline uint32_t ua_get_endpoints_request(const uint8_t *url, size_t url_len, int64_t moment,
    uint32_t request, uint8_t *buffer, size_t buffer_len, size_t *needed) {
    if ((!url && url_len) ||
        (!buffer && buffer_len)) {
        *needed = 0;
        return UA_BAD_ARGUMENT;
    }
    return ua_get_endpoints_request_given(url ? url : (const uint8_t *)(void *)&url_len, url_len,
        moment, request, buffer ? buffer : (uint8_t *)(void *)&buffer_len, buffer_len, needed);
}

uint32_t ua_create_session_request_given(const uint8_t *url, size_t url_len, int64_t moment,
    uint32_t request, uint8_t *buffer, size_t buffer_len, size_t *needed)
    __asm__("ua_create_session_request");
static inline uint32_t ua_create_session_request(const uint8_t *url, size_t url_len, int64_t moment,
    uint32_t request, uint8_t *buffer, size_t buffer_len, size_t *needed)
    __asm__("ua_create_session_request_in_front");
static inline uint32_t ua_create_session_request(const uint8_t *url, size_t url_len, int64_t moment,
    uint32_t request, uint8_t *buffer, size_t buffer_len, size_t *needed) {
    if ((!url && url_len) ||
        (!buffer && buffer_len)) {
        *needed = 0;
        return UA_BAD_ARGUMENT;
    }
    return ua_create_session_request_given(url ? url : (const uint8_t *)(void *)&url_len, url_len,
        moment, request, buffer ? buffer : (uint8_t *)(void *)&buffer_len, buffer_len, needed);
}

uint32_t ua_activate_session_request_given(const uint8_t *token, size_t token_len, int64_t moment,
    uint32_t request, uint8_t *buffer, size_t buffer_len, size_t *needed)
    __asm__("ua_activate_session_request");
static inline uint32_t ua_activate_session_request(const uint8_t *token, size_t token_len,
    int64_t moment, uint32_t request, uint8_t *buffer, size_t buffer_len, size_t *needed)
    __asm__("ua_activate_session_request_in_front");
static inline uint32_t ua_activate_session_request(const uint8_t *token, size_t token_len,
    int64_t moment, uint32_t request, uint8_t *buffer, size_t buffer_len, size_t *needed) {
    if ((!token && token_len) ||
        (!buffer && buffer_len)) {
        *needed = 0;
        return UA_BAD_ARGUMENT;
    }
    return ua_activate_session_request_given(token ? token : (const uint8_t *)(void *)&token_len,
        token_len, moment, request, buffer ? buffer : (uint8_t *)(void *)&buffer_len, buffer_len,
        needed);
}

uint32_t ua_activate_session_request_as_given(const uint8_t *token, size_t token_len,
    const uint8_t *policy, size_t policy_len, int64_t moment, uint32_t request, uint8_t *buffer,
    size_t buffer_len, size_t *needed, uint32_t *reason) __asm__("ua_activate_session_request_as");
static inline uint32_t ua_activate_session_request_as(const uint8_t *token, size_t token_len,
    const uint8_t *policy, size_t policy_len, int64_t moment, uint32_t request, uint8_t *buffer,
    size_t buffer_len, size_t *needed, uint32_t *reason)
    __asm__("ua_activate_session_request_as_in_front");
static inline uint32_t ua_activate_session_request_as(const uint8_t *token, size_t token_len,
    const uint8_t *policy, size_t policy_len, int64_t moment, uint32_t request, uint8_t *buffer,
    size_t buffer_len, size_t *needed, uint32_t *reason) {
    if ((!token && token_len) ||
        (!policy && policy_len) ||
        (!buffer && buffer_len)) {
        *needed = 0;
        *reason = 0;
        return UA_BAD_ARGUMENT;
    }
    return ua_activate_session_request_as_given(token ? token : (const uint8_t *)(void *)&token_len,
        token_len, policy ? policy : (const uint8_t *)(void *)&policy_len, policy_len, moment,
        request, buffer ? buffer : (uint8_t *)(void *)&buffer_len, buffer_len, needed, reason);
}

uint32_t ua_close_session_request_given(const uint8_t *token, size_t token_len, int64_t moment,
    uint32_t request, uint8_t *buffer, size_t buffer_len, size_t *needed)
    __asm__("ua_close_session_request");
static inline uint32_t ua_close_session_request(const uint8_t *token, size_t token_len,
    int64_t moment, uint32_t request, uint8_t *buffer, size_t buffer_len, size_t *needed)
    __asm__("ua_close_session_request_in_front");
static inline uint32_t ua_close_session_request(const uint8_t *token, size_t token_len,
    int64_t moment, uint32_t request, uint8_t *buffer, size_t buffer_len, size_t *needed) {
    if ((!token && token_len) ||
        (!buffer && buffer_len)) {
        *needed = 0;
        return UA_BAD_ARGUMENT;
    }
    return ua_close_session_request_given(token ? token : (const uint8_t *)(void *)&token_len,
        token_len, moment, request, buffer ? buffer : (uint8_t *)(void *)&buffer_len, buffer_len,
        needed);
}

uint32_t ua_read_request_given(const uint8_t *token, size_t token_len, int64_t moment,
    uint32_t request, const uint8_t *nodes, size_t nodes_len, const uint8_t *range,
    size_t range_len, uint8_t *buffer, size_t buffer_len, size_t *needed, uint32_t *reason,
    size_t *index) __asm__("ua_read_request");
static inline uint32_t ua_read_request(const uint8_t *token, size_t token_len, int64_t moment,
    uint32_t request, const uint8_t *nodes, size_t nodes_len, const uint8_t *range,
    size_t range_len, uint8_t *buffer, size_t buffer_len, size_t *needed, uint32_t *reason,
    size_t *index) __asm__("ua_read_request_in_front");
static inline uint32_t ua_read_request(const uint8_t *token, size_t token_len, int64_t moment,
    uint32_t request, const uint8_t *nodes, size_t nodes_len, const uint8_t *range,
    size_t range_len, uint8_t *buffer, size_t buffer_len, size_t *needed, uint32_t *reason,
    size_t *index) {
    if ((!token && token_len) ||
        (!nodes && nodes_len) ||
        (!range && range_len) ||
        (!buffer && buffer_len)) {
        *needed = 0;
        *reason = 0;
        *index = 0;
        return UA_BAD_ARGUMENT;
    }
    return ua_read_request_given(token ? token : (const uint8_t *)(void *)&token_len, token_len,
        moment, request, nodes ? nodes : (const uint8_t *)(void *)&nodes_len, nodes_len,
        range ? range : (const uint8_t *)(void *)&range_len, range_len,
        buffer ? buffer : (uint8_t *)(void *)&buffer_len, buffer_len, needed, reason, index);
}

uint32_t ua_write_request_given(const uint8_t *token, size_t token_len, int64_t moment,
    uint32_t request, const uint8_t *node, size_t node_len, const uint8_t *type, size_t type_len,
    const uint8_t *text, size_t text_len, uint8_t *buffer, size_t buffer_len, size_t *needed,
    uint32_t *reason) __asm__("ua_write_request");
static inline uint32_t ua_write_request(const uint8_t *token, size_t token_len, int64_t moment,
    uint32_t request, const uint8_t *node, size_t node_len, const uint8_t *type, size_t type_len,
    const uint8_t *text, size_t text_len, uint8_t *buffer, size_t buffer_len, size_t *needed,
    uint32_t *reason) __asm__("ua_write_request_in_front");
static inline uint32_t ua_write_request(const uint8_t *token, size_t token_len, int64_t moment,
    uint32_t request, const uint8_t *node, size_t node_len, const uint8_t *type, size_t type_len,
    const uint8_t *text, size_t text_len, uint8_t *buffer, size_t buffer_len, size_t *needed,
    uint32_t *reason) {
    if ((!token && token_len) ||
        (!node && node_len) ||
        (!type && type_len) ||
        (!text && text_len) ||
        (!buffer && buffer_len)) {
        *needed = 0;
        *reason = 0;
        return UA_BAD_ARGUMENT;
    }
    return ua_write_request_given(token ? token : (const uint8_t *)(void *)&token_len, token_len,
        moment, request, node ? node : (const uint8_t *)(void *)&node_len, node_len,
        type ? type : (const uint8_t *)(void *)&type_len, type_len,
        text ? text : (const uint8_t *)(void *)&text_len, text_len,
        buffer ? buffer : (uint8_t *)(void *)&buffer_len, buffer_len, needed, reason);
}

uint32_t ua_response_kind_given(const uint8_t *body, size_t body_len, uint32_t *response,
    uint32_t *service_result) __asm__("ua_response_kind");
static inline uint32_t ua_response_kind(const uint8_t *body, size_t body_len, uint32_t *response,
    uint32_t *service_result) __asm__("ua_response_kind_in_front");
static inline uint32_t ua_response_kind(const uint8_t *body, size_t body_len, uint32_t *response,
    uint32_t *service_result) {
    if (!body && body_len) {
        *response = 0;
        *service_result = 0;
        return UA_BAD_ARGUMENT;
    }
    return ua_response_kind_given(body ? body : (const uint8_t *)(void *)&body_len, body_len,
        response, service_result);
}

uint32_t ua_choose_policy_given(const uint8_t *body, size_t body_len, uint8_t *buffer,
    size_t buffer_len, size_t *needed, uint32_t *code) __asm__("ua_choose_policy");
static inline uint32_t ua_choose_policy(const uint8_t *body, size_t body_len, uint8_t *buffer,
    size_t buffer_len, size_t *needed, uint32_t *code) __asm__("ua_choose_policy_in_front");
static inline uint32_t ua_choose_policy(const uint8_t *body, size_t body_len, uint8_t *buffer,
    size_t buffer_len, size_t *needed, uint32_t *code) {
    if ((!body && body_len) ||
        (!buffer && buffer_len)) {
        *needed = 0;
        *code = 0;
        return UA_BAD_ARGUMENT;
    }
    return ua_choose_policy_given(body ? body : (const uint8_t *)(void *)&body_len, body_len,
        buffer ? buffer : (uint8_t *)(void *)&buffer_len, buffer_len, needed, code);
}

uint32_t ua_session_token_given(const uint8_t *body, size_t body_len, uint8_t *buffer,
    size_t buffer_len, size_t *needed, uint32_t *code) __asm__("ua_session_token");
static inline uint32_t ua_session_token(const uint8_t *body, size_t body_len, uint8_t *buffer,
    size_t buffer_len, size_t *needed, uint32_t *code) __asm__("ua_session_token_in_front");
static inline uint32_t ua_session_token(const uint8_t *body, size_t body_len, uint8_t *buffer,
    size_t buffer_len, size_t *needed, uint32_t *code) {
    if ((!body && body_len) ||
        (!buffer && buffer_len)) {
        *needed = 0;
        *code = 0;
        return UA_BAD_ARGUMENT;
    }
    return ua_session_token_given(body ? body : (const uint8_t *)(void *)&body_len, body_len,
        buffer ? buffer : (uint8_t *)(void *)&buffer_len, buffer_len, needed, code);
}

uint32_t ua_response_text_given(const uint8_t *nodes, size_t nodes_len, const uint8_t *body,
    size_t body_len, uint8_t *buffer, size_t buffer_len, size_t *needed, uint32_t *code)
    __asm__("ua_response_text");
static inline uint32_t ua_response_text(const uint8_t *nodes, size_t nodes_len, const uint8_t *body,
    size_t body_len, uint8_t *buffer, size_t buffer_len, size_t *needed, uint32_t *code)
    __asm__("ua_response_text_in_front");
static inline uint32_t ua_response_text(const uint8_t *nodes, size_t nodes_len, const uint8_t *body,
    size_t body_len, uint8_t *buffer, size_t buffer_len, size_t *needed, uint32_t *code) {
    if ((!nodes && nodes_len) ||
        (!body && body_len) ||
        (!buffer && buffer_len)) {
        *needed = 0;
        *code = 0;
        return UA_BAD_ARGUMENT;
    }
    return ua_response_text_given(nodes ? nodes : (const uint8_t *)(void *)&nodes_len, nodes_len,
        body ? body : (const uint8_t *)(void *)&body_len, body_len,
        buffer ? buffer : (uint8_t *)(void *)&buffer_len, buffer_len, needed, code);
}

uint32_t ua_readings_given(const uint8_t *body, size_t body_len, struct ua_reading *readings,
    size_t readings_len, size_t *count, uint32_t *code) __asm__("ua_readings");
static inline uint32_t ua_readings(const uint8_t *body, size_t body_len,
    struct ua_reading *readings, size_t readings_len, size_t *count, uint32_t *code)
    __asm__("ua_readings_in_front");
static inline uint32_t ua_readings(const uint8_t *body, size_t body_len,
    struct ua_reading *readings, size_t readings_len, size_t *count, uint32_t *code) {
    if ((!body && body_len) ||
        (!readings && readings_len)) {
        *count = 0;
        *code = 0;
        return UA_BAD_ARGUMENT;
    }
    return ua_readings_given(body ? body : (const uint8_t *)(void *)&body_len, body_len,
        readings ? readings : (struct ua_reading *)(void *)&readings_len, readings_len, count,
        code);
}

uint32_t ua_status_text_given(uint32_t status, uint8_t *buffer, size_t buffer_len, size_t *needed)
    __asm__("ua_status_text");
static inline uint32_t ua_status_text(uint32_t status, uint8_t *buffer, size_t buffer_len,
    size_t *needed) __asm__("ua_status_text_in_front");
static inline uint32_t ua_status_text(uint32_t status, uint8_t *buffer, size_t buffer_len,
    size_t *needed) {
    if (!buffer && buffer_len) {
        *needed = 0;
        return UA_BAD_ARGUMENT;
    }
    return ua_status_text_given(status, buffer ? buffer : (uint8_t *)(void *)&buffer_len,
        buffer_len, needed);
}

uint32_t ua_code_name_given(uint32_t code, uint8_t *buffer, size_t buffer_len, size_t *needed)
    __asm__("ua_code_name");
static inline uint32_t ua_code_name(uint32_t code, uint8_t *buffer, size_t buffer_len,
    size_t *needed) __asm__("ua_code_name_in_front");
static inline uint32_t ua_code_name(uint32_t code, uint8_t *buffer, size_t buffer_len,
    size_t *needed) {
    if (!buffer && buffer_len) {
        *needed = 0;
        return UA_BAD_ARGUMENT;
    }
    return ua_code_name_given(code, buffer ? buffer : (uint8_t *)(void *)&buffer_len, buffer_len,
        needed);
}

#endif

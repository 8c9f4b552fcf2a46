/* Infos: keys with values. The library heeds none of them. */
#include "diagnostics.h"

struct entry {
    char *key, *value;
    struct entry *next;
};

struct info {
    struct entry *first;
};

static struct info *known(MPI_Info handle, const char *call, int *code) {
    this_rank(call);
    static struct info environment;
    struct info *info = handle == MPI_INFO_ENV ? &environment : find_handle(INFO, handle);
    *code = info != NULL ? MPI_SUCCESS : refuse(NULL, MPI_ERR_INFO, call, "there is no such info, or it was freed");
    return info;
}

int judge_info(MPI_Info handle, const char *call) {
    int code = MPI_SUCCESS;
    if (handle != MPI_INFO_NULL) known(handle, call, &code);
    return code;
}

static struct entry **find(struct info *info, const char *key) {
    struct entry **at = &info->first;
    while (*at != NULL && strcmp((*at)->key, key) != 0) at = &(*at)->next;
    return at;
}

static void free_entry(struct entry *entry) {
    free(entry->key);
    free(entry->value);
    free(entry);
}

static void set(struct info *info, const char *key, const char *value) {
    struct entry **at = find(info, key);
    if (*at == NULL) {
        *at = must(calloc(1, sizeof **at));
        (*at)->key = must(strdup(key));
    }
    free((*at)->value);
    (*at)->value = must(strdup(value));
}

int MPI_Info_create(MPI_Info *made) {
    this_rank("MPI_Info_create");
    *made = (MPI_Info)add_handle(INFO, must(calloc(1, sizeof(struct info))));
    return MPI_SUCCESS;
}

MPI_Info new_hints(void) { return (MPI_Info)add_own_handle(INFO, must(calloc(1, sizeof(struct info)))); }

int MPI_Info_dup(MPI_Info handle, MPI_Info *made) {
    int code;
    struct info *info = known(handle, "MPI_Info_dup", &code);
    if (info == NULL) return code;
    MPI_Info_create(made);
    struct info *copy = find_handle(INFO, *made);
    for (struct entry *entry = info->first; entry != NULL; entry = entry->next) set(copy, entry->key, entry->value);
    return code;
}

int MPI_Info_set(MPI_Info handle, const char *key, const char *value) {
    int code;
    struct info *info = known(handle, "MPI_Info_set", &code);
    if (info == NULL) return code;
    if (strlen(key) > MPI_MAX_INFO_KEY) return refuse(NULL, MPI_ERR_INFO_KEY, "MPI_Info_set", "the key has more than %d characters", MPI_MAX_INFO_KEY);
    if (strlen(value) > MPI_MAX_INFO_VAL) return refuse(NULL, MPI_ERR_INFO_VALUE, "MPI_Info_set", "the value has more than %d characters", MPI_MAX_INFO_VAL);
    set(info, key, value);
    return code;
}

int MPI_Info_get(MPI_Info handle, const char *key, int room, char *value, int *flag) {
    int code;
    struct info *info = known(handle, "MPI_Info_get", &code);
    if (info == NULL) return code;
    struct entry *entry = *find(info, key);
    *flag = entry != NULL;
    if (entry != NULL) snprintf(value, (size_t)room + 1, "%s", entry->value);
    return code;
}

/* *ROOM becomes what the value needs, with its end. */
int MPI_Info_get_string(MPI_Info handle, const char *key, int *room, char *value, int *flag) {
    int code;
    struct info *info = known(handle, "MPI_Info_get_string", &code);
    if (info == NULL) return code;
    struct entry *entry = *find(info, key);
    *flag = entry != NULL;
    if (entry == NULL) return code;
    if (*room > 0) snprintf(value, (size_t)*room, "%s", entry->value);
    *room = (int)strlen(entry->value) + 1;
    return code;
}

int MPI_Info_create_env(int argc, char *argv[], MPI_Info *made) {
    (void)argc, (void)argv;
    return MPI_Info_create(made); /* this library knows nothing of what MPI_INFO_ENV may say */
}

int MPI_Info_get_valuelen(MPI_Info handle, const char *key, int *length, int *flag) {
    int code;
    struct info *info = known(handle, "MPI_Info_get_valuelen", &code);
    if (info == NULL) return code;
    struct entry *entry = *find(info, key);
    *flag = entry != NULL;
    if (entry != NULL) *length = (int)strlen(entry->value);
    return code;
}

int MPI_Info_get_nkeys(MPI_Info handle, int *many) {
    int code;
    struct info *info = known(handle, "MPI_Info_get_nkeys", &code);
    *many = 0;
    for (struct entry *entry = info != NULL ? info->first : NULL; entry != NULL; entry = entry->next) ++*many;
    return code;
}

int MPI_Info_get_nthkey(MPI_Info handle, int n, char *key) {
    int code;
    struct info *info = known(handle, "MPI_Info_get_nthkey", &code);
    if (info == NULL) return code;
    struct entry *entry = info->first;
    for (int i = 0; i < n && entry != NULL; i++) entry = entry->next;
    if (entry == NULL || n < 0) return refuse(NULL, MPI_ERR_ARG, "MPI_Info_get_nthkey", "the info has no key %d", n);
    strcpy(key, entry->key);
    return code;
}

int MPI_Info_delete(MPI_Info handle, const char *key) {
    int code;
    struct info *info = known(handle, "MPI_Info_delete", &code);
    if (info == NULL) return code;
    struct entry **at = find(info, key), *entry = *at;
    if (entry == NULL) return refuse(NULL, MPI_ERR_INFO_NOKEY, "MPI_Info_delete", "the info has no key \"%s\"", key);
    *at = entry->next;
    free_entry(entry);
    return code;
}

int MPI_Info_free(MPI_Info *handle) {
    int code;
    struct info *info = known(*handle, "MPI_Info_free", &code);
    if (info == NULL || *handle == MPI_INFO_ENV) return code;
    for (struct entry *entry = info->first, *next; entry != NULL; entry = next) {
        next = entry->next;
        free_entry(entry);
    }
    remove_handle(INFO, *handle);
    free(info);
    *handle = MPI_INFO_NULL;
    return code;
}

int MPI_Comm_set_info(MPI_Comm comm, MPI_Info info) {
    (void)info;
    this_rank("MPI_Comm_set_info");
    return find_comm(comm) != NULL ? MPI_SUCCESS : comm_error(comm, "MPI_Comm_set_info");
}

int MPI_Comm_get_info(MPI_Comm comm, MPI_Info *info) {
    this_rank("MPI_Comm_get_info");
    return find_comm(comm) != NULL ? MPI_Info_create(info) : comm_error(comm, "MPI_Comm_get_info");
}

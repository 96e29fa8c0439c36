"""Which schema of a cluster a request is of: an independent matcher.

A schema is a dict: `name`, `level`, `by` (`user`, `namespace` or `nothing`), and `rules`, each its subjects, resource rules and non-resource rules. A request
is a dict: `user`, `groups`, `verb`, `path`, and where that is None `group`, `resource` and `namespace`.
"""


def stands(texts, text):
    return "*" in texts or text in texts


def is_subject(subject, asked):
    if subject[0] == "User":
        return subject[1] in ("*", asked["user"])
    if subject[0] == "Group":
        return subject[1] == "*" or subject[1] in asked["groups"]
    front = f"system:serviceaccount:{subject[1]}:"
    return asked["user"].startswith(front) and subject[2] in ("*", asked["user"][len(front):])


def is_path(url, path):
    if url in ("*", path):
        return True
    stem = url[:-1]
    return url.endswith("*") and path.startswith(stem if stem.endswith("/") else stem + "/")


def miss_of(schema, asked):
    """The first thing that does not match, of the rule that matches furthest, and nothing where the schema matches."""
    best = "rules", 0
    found = []
    for subjects, resources, paths in schema["rules"]:
        if not any(is_subject(it, asked) for it in subjects):
            found.append(("subject", 1))
            continue
        here = [("rules", 2)]
        if asked["path"] is None:
            for verbs, groups, names, scope, namespaces in resources:
                if not stands(verbs, asked["verb"]):
                    here.append(("verb", 3))
                elif not stands(groups, asked["group"]):
                    here.append(("API group", 4))
                elif not stands(names, asked["resource"]):
                    here.append(("resource", 5))
                elif not (stands(namespaces, asked["namespace"]) if asked["namespace"] else scope):
                    here.append(("namespace", 6))
                else:
                    return None
        else:
            for verbs, urls in paths:
                if not stands(verbs, asked["verb"]):
                    here.append(("verb", 3))
                elif not any(is_path(it, asked["path"]) for it in urls):
                    here.append(("path", 4))
                else:
                    return None
        found.append(max(here, key=lambda it: it[1]))
    return max([best, *found], key=lambda it: it[1])[0]


def matches(schema, asked):
    """Whether the schema matches, and nothing of why not."""
    for subjects, resources, paths in schema["rules"]:
        for subject in subjects:
            if is_subject(subject, asked):
                break
        else:
            continue
        if asked["path"] is None:
            for verbs, groups, names, scope, namespaces in resources:
                if stands(verbs, asked["verb"]) and stands(groups, asked["group"]) and stands(names, asked["resource"]):
                    if stands(namespaces, asked["namespace"]) if asked["namespace"] else scope:
                        return True
        else:
            for verbs, urls in paths:
                if stands(verbs, asked["verb"]) and any(is_path(it, asked["path"]) for it in urls):
                    return True
    return False


def schema_of(live, asked):
    for place, schema in enumerate(live):
        if matches(schema, asked):
            return place
    return next(i for i, it in enumerate(live) if it["name"] == "catch-all")


def distinguisher_of(schema, asked):
    return {"user": asked["user"], "namespace": asked["namespace"] if asked["path"] is None else "", "nothing": ""}[schema["by"]]

"""Links, images, definitions and autolinks, and what stands in images: how they are written, what
they mean, and their rows of `flags` and `attacks`.
"""
import texts
from nodes import Around, first, meaning_of
from prose import data, emphasis, escaped, spaces, task
from raw import inline_code, inline_html
from trees import AtEnd, Node, node

AUTOLINKS = {"AutolinkEmail": "mailto:", "AutolinkProtocol": "",
             "GfmAutolinkLiteralEmail": "mailto:",
             "GfmAutolinkLiteralMailto": "", "GfmAutolinkLiteralProtocol": "",
             "GfmAutolinkLiteralWww": "http://",
             "GfmAutolinkLiteralXmpp": ""}
TITLED = '<i>"&'


def label(mark, *parts):
    return node("Label", mark, node("LabelText", *parts), "]")


def resource(*parts):
    return node("Resource", "(", *parts, ")")


def destination(*parts):
    return node("ResourceDestinationString", *parts)


def link(labelled, leads, *title, name="Link"):
    """A link with a label, nodes, and a resource with a destination, a text; after it what is
    said of a title.
    """
    return node(name, label("![" if name == "Image" else "[", *labelled),
                resource(destination(data(leads)), *title))


def image(labelled, leads, *title):
    return link(labelled, leads, *title, name="Image")


def definition(labelled, leads, *title):
    return node("Definition", "[", node("DefinitionLabelString", *labelled), "]: ",
                node("DefinitionDestinationString", *leads), *title)


def titled(name):
    return [spaces(), '"', node(name, data(TITLED)), '"']


def autolinks(text):
    return [node(name, text) for name in AUTOLINKS]


def in_image(*nodes):
    """An image with this label, whose resource is at the end."""
    return node("Image", label("![", *nodes), AtEnd(resource()))


class Media:
    """What these mean, for `Meaning`."""

    def url(self, leads, is_image):
        if ("allow_dangerous_protocol" in self.options or is_image
            and "allow_any_img_src" in self.options):
            return texts.sanitized(leads)
        return texts.permitted(leads, texts.IMAGE_PROTOCOLS if is_image
                               else texts.LINK_PROTOCOLS)

    @meaning_of(*AUTOLINKS)
    def autolink(self, node, around):
        text = texts.encoded(self.source(node))
        if around.image or around.link and node.name.startswith("GfmAutolinkLiteral"):
            return [text]
        url = self.url(AUTOLINKS[node.name] + self.source(node), False)
        return [f'<a href="{url}">{text}</a>']

    def label(self, node):
        return texts.identifier(self.source(node))

    def identifier(self, node):
        """What a link, an image or a call refers to."""
        return self.label(first(node, "ReferenceString")
                          or first(first(node, "Label"), "LabelText"))

    def defined(self, every):
        """The target of the first definition with each label, of these nodes."""
        targets = {}
        for one in every:
            if one.name == "Definition":
                targets.setdefault(self.label(first(one, "DefinitionLabelString")),
                                   self.target(one))
        return targets

    def target(self, node):
        """The destination and the title, or None, that stand in a resource or a definition."""
        leads = first(node, "ResourceDestinationString", "DefinitionDestinationString")
        title = first(node, "ResourceTitleString", "DefinitionTitleString")
        return ("" if leads is None else self.captured(leads.children, Around(escaped=False)),
                None if title is None else self.captured(title.children, Around()))

    @meaning_of("Link", "Image")
    def media(self, node, around):
        is_image = node.name == "Image"
        inner = around._replace(image=True) if is_image else around._replace(link=True)
        text = self.captured([first(node, "Label")], inner)
        if around.image:
            return [text]
        own = first(node, "Resource")
        leads, title = self.target(own) if own else self.definitions[self.identifier(node)]
        url, title = self.url(leads, is_image), "" if title is None else f' title="{title}"'
        return [f'<img src="{url}" alt="{text}"{title} />' if is_image
                else f'<a href="{url}"{title}>{text}</a>']

    @meaning_of("Label", "LabelText")
    def labelled(self, node, around):
        return self.all(node.children, around)

    @meaning_of("Resource", "ReferenceString", "Definition")
    def read_elsewhere(self, node, around):
        return []


def rows_of_autolinks():
    """The rows of `flags::autolinks`."""
    dangerous = "javascript:a"
    return [
        ("protocol autolink", "", [node("AutolinkProtocol", dangerous)]),
        ("literal autolink of a protocol", "", [node("GfmAutolinkLiteralProtocol", dangerous)]),
        ("literal autolink of mailto", "", [node("GfmAutolinkLiteralMailto", dangerous)]),
        ("literal autolink of xmpp", "", [node("GfmAutolinkLiteralXmpp", dangerous)]),
        ("email autolink", "The protocol of the URL is `mailto`, whatever stands in the address",
         [node("AutolinkEmail", dangerous)]),
        ("literal autolink of an email", "", [node("GfmAutolinkLiteralEmail", dangerous)]),
        ("literal autolink of www", "The protocol of the URL is `http`",
         [node("GfmAutolinkLiteralWww", dangerous)]),
        ("autolinks with markup", "The text of an autolink is no HTML", autolinks('<"&')),
        ("autolinks in an image", "In an image each is its text", [image(autolinks("<a:"), "b")]),
        ("autolinks in a link", "In a link each literal is its text, and the other two are links",
         [link(autolinks("a:"), "b")]),
    ]


def rows():
    """The rows of `flags::media`."""
    a = [data("a")]
    linked, shown = node("Link", label("[", *a)), node("Image", label("![", *a))
    return [
        ("link by a resource", "", [link(a, "javascript:b")]),
        ("link by a definition", "", [linked, definition(a, [data("javascript:b")])]),
        ("link of a protocol that is permitted", "", [link(a, "ircs:b")]),
        ("link without a protocol", "", [link(a, "./b:c")]),
        ("image by a resource", "", [image(a, "data:x")]),
        ("image by a definition", "", [shown, definition(a, [data("data:x")])]),
        ("image of a protocol that links may have", "", [image(a, "mailto:b")]),
        ("image of a protocol that is permitted", "", [image(a, "https:b")]),
        ("image without a protocol", "", [image(a, "b?c:d")]),
        ("image in a link", "What lets an image lead anywhere lets no link do so",
         [link([image(a, "data:x")], "data:y")]),
        ("link in an image", "In an image a link is its label, and has no target",
         [image([link(a, "data:y")], "data:x")]),
        ("image in an image", "", [image([image(a, "data:y")], "data:x")]),
        ("link with markup", "The label, the destination and the title of a link are no HTML",
         [link([data(TITLED)], TITLED, *titled("ResourceTitleString"))]),
        ("image with markup", "Neither are those of an image",
         [image([data(TITLED)], TITLED, *titled("ResourceTitleString"))]),
        ("definition with markup", "Nor those of a definition",
         [linked, shown, definition(a, [data(TITLED)], *titled("DefinitionTitleString"))]),
        ("link around html", "", [link([inline_html("<xmp>")], "b")]),
        ("image around html", "HTML in the label of an image is HTML as well",
         [image([inline_html("<xmp>")], "b")]),
    ]


def rows_of_tasks():
    """A row of `flags::tasks`."""
    return [("tasks in an image", "In an image a task is nothing",
             [image([task("x"), task(""), data("a")], "b")])]


def ways_as_text():
    """Ways of `attacks`, of a text that stands in an image as it is written."""
    return [
        ("escaped characters and code in an image", ["allow_dangerous_html"],
         [in_image(escaped(), inline_code())]),
        ("html and emphasis in an image", [], [in_image(inline_html(), emphasis(data()))]),
    ]


def ways_read(nodes):
    """Ways of `attacks`, of nodes that are data and references."""
    both = [label("[", *nodes),
            resource(destination(*nodes), node("ResourceTitleString", *nodes))]
    defined = definition([], nodes, node("DefinitionTitleString", *nodes))
    leads = resource(destination(*nodes))
    empty = Node("Label", 0, 0, [Node("LabelText", 0, 0, [])])
    return [
        ("link", [], [node("Link", *both)]),
        ("image", [], [node("Image", *both)]),
        ("link by a definition", [], [node("Link", label("[", *nodes)), defined]),
        ("image by a definition", [],
         [node("Image", label("![", *nodes), node("ReferenceString")), defined]),
        ("any link around any image", ["allow_any_img_src", "allow_dangerous_protocol"],
         [node("Link", label("[", node("Image", empty, leads)), leads)]),
    ]


def ways_of_autolinks():
    """Ways of `attacks`, of a text that is an autolink."""
    return [
        ("autolinks", [], [node("AutolinkProtocol"), node("AutolinkEmail")]),
        ("literal autolinks of protocols", [],
         [node("GfmAutolinkLiteralProtocol"), node("GfmAutolinkLiteralMailto"),
          node("GfmAutolinkLiteralXmpp")]),
        ("literal autolinks of www and email", [],
         [node("GfmAutolinkLiteralWww"), node("GfmAutolinkLiteralEmail")]),
        ("autolinks in an image", [],
         [in_image(node("AutolinkProtocol"), node("GfmAutolinkLiteralWww"))]),
    ]

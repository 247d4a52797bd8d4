"""In words: why a file cannot be read, and what to do."""
import difflib
import os
import re

from .letters import look_alikes, plain_text, shown, some


def unread_words(name, plan, reason):
    """The lines for a file that the plan names, or for the plan itself, where the system gives this reason."""
    lines = [f"  file:  {shown(name)}, looked for as {os.path.abspath(name)}" if "\0" not in name else f"  file:  {shown(name)}", f"  why:   {reason}"]
    return "\n".join([*lines, f"  do:    {do_words(name, plan)}"])


def do_words(name, plan):
    beside = os.path.join(os.path.dirname(os.path.abspath(plan)), name)
    if name == "-":
        return "- stands for no input here: give the name of a file"
    if "\0" in name:
        return "delete the zero character in the name"
    if os.path.isdir(name):
        return f"this is a folder: name a file in it; it has {some(sorted(os.listdir(name))) or 'no files'}"
    if os.path.exists(name):
        return "give a regular file that you may read (ls -l says who may)"
    if name != plan and os.path.isfile(beside):
        return f"names in a plan are taken from the folder in which you run, and the file lies beside the plan: cd {os.path.dirname(os.path.abspath(plan))}"
    return spelling_words(name) or folder_words(name)


def spelling_words(name):
    """What a shell, a browser or another system would make of the name."""
    if re.match(r"[a-z]+://", name):
        return "this is an address: fetch the file, and name the copy"
    if name.startswith("~") or "$" in name:
        return "~ and $ mean nothing here: write the folder out"
    if re.search(r"[*?]", name):
        return "* and ? stand for no files here: name one file"
    if "\\" in name and os.path.exists(name.replace("\\", "/")):
        return f"folders stand apart by / here: {name.replace(chr(92), '/')}"
    return None


def folder_words(name):
    folder = os.path.dirname(os.path.abspath(name))
    if not os.path.isdir(folder):
        return f"there is no folder {folder}"
    near, base = sorted(os.listdir(folder)), os.path.basename(name)
    same = [it for it in near if plain_text(it).strip().lower() == plain_text(base).strip().lower()]
    if same:
        why = look_alikes(base) or look_alikes(same[0])
        return f"that folder has {shown(same[0])}: names are told apart by capitals and blanks" + (f", and by what only looks alike: {why}" if why else "")
    close = difflib.get_close_matches(base, near, 1, 0.8)
    return f"that folder has {some(near) or 'no files'}" + (f" (is it {close[0]}?)" if close else "")

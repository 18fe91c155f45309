#!/usr/bin/env python3
"""Packs the extension, so that VS Code can install it:

    python3 editors/vscode/pack.py pedx.vsix
    code --install-extension pedx.vsix

A .vsix is a zip file with the extension, what kind of files there are, and a manifest that repeats what package.json says.
"""
import json
import pathlib
import sys
import zipfile
from xml.sax.saxutils import escape, quoteattr

FOLDER = pathlib.Path(__file__).resolve().parent
FILES = ("package.json", "extension.js", "client.js")

TYPES = """<?xml version="1.0" encoding="utf-8"?>
<Types xmlns="http://schemas.openxmlformats.org/package/2006/content-types"><Default Extension=".json"
ContentType="application/json"/><Default Extension=".js" ContentType="application/javascript"/><Default
Extension=".vsixmanifest" ContentType="text/xml"/></Types>
"""
MANIFEST = """<?xml version="1.0" encoding="utf-8"?>
<PackageManifest Version="2.0.0" xmlns="http://schemas.microsoft.com/developer/vsx-schema/2011">
<Metadata>
<Identity Language="en-US" Id={name} Version={version} Publisher={publisher}/>
<DisplayName>{title}</DisplayName>
<Description xml:space="preserve">{description}</Description>
<Properties><Property Id="Microsoft.VisualStudio.Code.Engine" Value={engine}/></Properties>
</Metadata>
<Installation><InstallationTarget Id="Microsoft.VisualStudio.Code"/></Installation>
<Dependencies/>
<Assets><Asset Type="Microsoft.VisualStudio.Code.Manifest" Path="extension/package.json" Addressable="true"/></Assets>
</PackageManifest>
"""


def manifest() -> str:
    """The manifest of the package."""
    about = json.loads((FOLDER / "package.json").read_text(encoding="utf-8"))
    return MANIFEST.format(
        name=quoteattr(about["name"]), version=quoteattr(about["version"]), publisher=quoteattr(about["publisher"]),
        title=escape(about["displayName"]), description=escape(about["description"]), engine=quoteattr(about["engines"]["vscode"]),
    )


def pack(path: str) -> None:
    """Writes the package."""
    with zipfile.ZipFile(path, "w", zipfile.ZIP_DEFLATED) as package:
        package.writestr("extension.vsixmanifest", manifest())
        package.writestr("[Content_Types].xml", TYPES)
        for name in FILES:
            package.write(FOLDER / name, f"extension/{name}")


if __name__ == "__main__":
    if len(sys.argv) != 2:
        sys.exit("usage: pack.py OUT.vsix")
    pack(sys.argv[1])

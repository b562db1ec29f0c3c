"""A letter as a plain text, the DTD that it is marked up by, and the same letter marked up."""
DTD = """<!ELEMENT TEI (teiHeader, text)>
<!ELEMENT teiHeader (title, author)>
<!ELEMENT title (#PCDATA)>
<!ELEMENT author (#PCDATA)>
<!ELEMENT text (opener, p+, list?, p*, closer, postscript?)>
<!ELEMENT opener (dateline, salute)>
<!ELEMENT dateline (#PCDATA|placeName|date)*>
<!ELEMENT salute (#PCDATA|persName)*>
<!ELEMENT p (#PCDATA|persName|placeName|date|lb|hi)*>
<!ELEMENT list (item, item+)>
<!ELEMENT item (#PCDATA|persName|placeName|hi)*>
<!ELEMENT closer (#PCDATA|persName|lb)*>
<!ELEMENT postscript (p+)>
<!ELEMENT persName (#PCDATA)>
<!ELEMENT placeName (#PCDATA)>
<!ELEMENT date (#PCDATA)>
<!ELEMENT hi (#PCDATA)>
<!ELEMENT lb EMPTY>
<!ATTLIST persName key CDATA #IMPLIED>
<!ATTLIST date when CDATA #IMPLIED>
"""
PLAIN = """Letter to Pieter
Leiden, 3 May 1764
Dear brother,
I have met Mr Adams in Delft. Mr Adams sends regards to Anna.
We saw: the Old Church; the New Church; the market.
From Delft he goes to Leiden, and from Leiden to London on 12 May.
Yours, Jan
PS Greet Anna. Anna will know why.
"""
WHOLE = """<TEI><teiHeader><title>Letter to his brother Pieter</title><author>Jan</author></teiHeader>
<text><opener><dateline><placeName>Leiden</placeName>, <date when="1764-05-03">3 May 1764</date></dateline>
<salute>Dear brother,</salute></opener>
<p>I have met <persName key="adams">Mr Adams</persName> in <placeName>Delft</placeName>. <persName>Mr Adams</persName> sends his regards to \
<persName key="anna">Anna</persName>.</p>
<p>We saw:</p> <list><item>the <hi>Old</hi> Church</item> <item>the <hi>New</hi> Church</item> <item>the market.</item></list>
<p>From <placeName>Delft</placeName> he goes to <placeName>Leiden</placeName>, and from <placeName>Leiden</placeName> to \
<placeName>London</placeName> on <date when="1764-05-12">12 May</date>.</p>
<closer>Yours, <lb/><persName key="jan">Jan</persName></closer>
<postscript><p>PS Greet <persName>Anna</persName>. <persName>Anna</persName> will know &#10;why.</p></postscript></text>
</TEI>
""".replace("\\\n", "")

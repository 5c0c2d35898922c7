	sj	start
	half	0
	word	0
	word	0
	word	0
error	mfsfr	r6	sfr0
	xhw	r7	r6
	cmplti	r7	0
	sjt	fetch
	addi	r2	1
	sj	clear
fetch	addi	r3	1
	mfsfr	r7	sfr1
	mtsfr	sfr2	r7
clear	ldrpc	r7	mask
	and	r6	r7
	mtsfr	sfr0	r6
	jsfr	sfr2
	half	0
mask	word	-0xc000-1
start	movi	r1	0
	mtsfr	sfr4	r1
	movi	r0	0
probe	ldrb	r5	0	r0
	cmpeqi	r2	0
	sjf	size
	addi	r0	16
	sj	probe
size	str	r5	0	r0
	ldrpc	r5	0x200
	jrl	r0
	half	0
stay	sj	stay

	ldrpc	r1	keyat
	movi	r2	4
	movi	r9	-1
	mtsfr	sfr3	r9
	movi	r10	16
	mtsfr	sfr0	r10
next	ldr	r6	0	r1
	movi	r4	9
	andi	r4	31
	lsr	r6	r4
	xor	r3	r6
	addi	r1	4
	addi	r2	-1
	cmpgti	r2	0
	sjt	next
	mfsfr	r8	sfr3
	sub	r9	r8
stay	sj	stay
keyat	word	key
key	word	0x4e4f5441
	word	0x5259204b
	word	0x45592053
	word	0x54415445

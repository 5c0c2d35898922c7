	j	begin
	jsfr	sfr2
	half	0
	addi	r12	1
	jsfr	sfr2
line	addi	r13	1
	jsfr	sfr2
buserror	sj	buserror
	half	0
begin	ldrpc	r0	stack
	ldrpc	r6	permit
	mtsfr	sfr0	r6
	ldrpc	r1	first
	movi	r2	0
	jl	recipe
	ldrpc	r7	secret
	movi	r9	64
sign	ldr	r10	0	r7
	xor	r8	r10
	cmpeqi	r8	0
	sjt	stay
	addi	r7	4
	addi	r9	-4
	cmpgti	r9	0
	sjt	sign
stay	sj	stay
stack	word	0x10000
permit	word	0x400020
first	word	layer1
secret	word	0x10000-8*16-64
recipe	cmpgti	r2	8-1
	sjt	back
	ldrb	r3	0	r1
	movi	r4	0x30
	cmpeq	r3	r4
	sjf	back
	addi	r0	-16
	mfsfr	r5	sfr1
	str	r5	12	r0
	str	r1	8	r0
	str	r3	4	r0
	str	r4	0	r0
	addi	r1	2
	addi	r2	1
	jl	recipe
	ldr	r1	8	r0
	ldr	r5	12	r0
	addi	r0	16
	jr	r5
back	jsfr	sfr1
layer1	half	0x3000+end-layer1-2
layer2	half	0x3000+end-layer2-2
layer3	half	0x3000+end-layer3-2
layer4	half	0x3000+end-layer4-2
layer5	half	0x3000+end-layer5-2
layer6	half	0x3000+end-layer6-2
layer7	half	0x3000+end-layer7-2
layer8	half	0x3000+end-layer8-2
layer9	half	0x3000+end-layer9-2
layer10	half	0x3000+end-layer10-2
layer11	half	0x3000+end-layer11-2
	half	0x0402
	half	0xdeed
end	half	0

// Prints the place and width of every field of the structures on disk, from the XFS headers of Debian's xfslibs-dev:
// one line a field, `struct field offset size`, and a line `struct end size 0` for each structure.
#include <stddef.h>
#include <stdint.h>
#include <stdio.h>
#include <xfs/xfs.h>
#include <xfs/xfs_arch.h>
#include <xfs/xfs_types.h>
#include <xfs/xfs_format.h>
#include <xfs/xfs_log_format.h>

#define WIDTH(type, path) sizeof(((struct type *)0)->path)
#define LINE(type, name, path) printf("%s %s %zu %zu\n", #type, #name, offsetof(struct type, path), WIDTH(type, path))
#define FIELD(type, name) LINE(type, name, name)
#define SIZE(type, size) printf("%s end %zu 0\n", #type, (size_t)(size))

static void superblock(void) {
    FIELD(xfs_dsb, sb_magicnum);
    FIELD(xfs_dsb, sb_blocksize);
    FIELD(xfs_dsb, sb_dblocks);
    FIELD(xfs_dsb, sb_rblocks);
    FIELD(xfs_dsb, sb_rextents);
    FIELD(xfs_dsb, sb_uuid);
    FIELD(xfs_dsb, sb_logstart);
    FIELD(xfs_dsb, sb_rootino);
    FIELD(xfs_dsb, sb_rbmino);
    FIELD(xfs_dsb, sb_rsumino);
    FIELD(xfs_dsb, sb_rextsize);
    FIELD(xfs_dsb, sb_agblocks);
    FIELD(xfs_dsb, sb_agcount);
    FIELD(xfs_dsb, sb_rbmblocks);
    FIELD(xfs_dsb, sb_logblocks);
    FIELD(xfs_dsb, sb_versionnum);
    FIELD(xfs_dsb, sb_sectsize);
    FIELD(xfs_dsb, sb_inodesize);
    FIELD(xfs_dsb, sb_inopblock);
    FIELD(xfs_dsb, sb_fname);
    FIELD(xfs_dsb, sb_blocklog);
    FIELD(xfs_dsb, sb_sectlog);
    FIELD(xfs_dsb, sb_inodelog);
    FIELD(xfs_dsb, sb_inopblog);
    FIELD(xfs_dsb, sb_agblklog);
    FIELD(xfs_dsb, sb_rextslog);
    FIELD(xfs_dsb, sb_inprogress);
    FIELD(xfs_dsb, sb_imax_pct);
    FIELD(xfs_dsb, sb_icount);
    FIELD(xfs_dsb, sb_ifree);
    FIELD(xfs_dsb, sb_fdblocks);
    FIELD(xfs_dsb, sb_frextents);
    FIELD(xfs_dsb, sb_uquotino);
    FIELD(xfs_dsb, sb_gquotino);
    FIELD(xfs_dsb, sb_qflags);
    FIELD(xfs_dsb, sb_flags);
    FIELD(xfs_dsb, sb_shared_vn);
    FIELD(xfs_dsb, sb_inoalignmt);
    FIELD(xfs_dsb, sb_unit);
    FIELD(xfs_dsb, sb_width);
    FIELD(xfs_dsb, sb_dirblklog);
    FIELD(xfs_dsb, sb_logsectlog);
    FIELD(xfs_dsb, sb_logsectsize);
    FIELD(xfs_dsb, sb_logsunit);
    FIELD(xfs_dsb, sb_features2);
    FIELD(xfs_dsb, sb_bad_features2);
    FIELD(xfs_dsb, sb_features_compat);
    FIELD(xfs_dsb, sb_features_ro_compat);
    FIELD(xfs_dsb, sb_features_incompat);
    FIELD(xfs_dsb, sb_features_log_incompat);
    FIELD(xfs_dsb, sb_crc);
    FIELD(xfs_dsb, sb_spino_align);
    FIELD(xfs_dsb, sb_pquotino);
    FIELD(xfs_dsb, sb_lsn);
    FIELD(xfs_dsb, sb_meta_uuid);
    SIZE(xfs_dsb, sizeof(struct xfs_dsb));
}

static void group_headers(void) {
    FIELD(xfs_agf, agf_magicnum);
    FIELD(xfs_agf, agf_versionnum);
    FIELD(xfs_agf, agf_seqno);
    FIELD(xfs_agf, agf_length);
    LINE(xfs_agf, agf_bno_root, agf_roots[0]);
    LINE(xfs_agf, agf_cnt_root, agf_roots[1]);
    LINE(xfs_agf, agf_rmap_root, agf_roots[2]);
    LINE(xfs_agf, agf_bno_level, agf_levels[0]);
    LINE(xfs_agf, agf_cnt_level, agf_levels[1]);
    LINE(xfs_agf, agf_rmap_level, agf_levels[2]);
    FIELD(xfs_agf, agf_flfirst);
    FIELD(xfs_agf, agf_fllast);
    FIELD(xfs_agf, agf_flcount);
    FIELD(xfs_agf, agf_freeblks);
    FIELD(xfs_agf, agf_longest);
    FIELD(xfs_agf, agf_btreeblks);
    FIELD(xfs_agf, agf_uuid);
    FIELD(xfs_agf, agf_rmap_blocks);
    FIELD(xfs_agf, agf_refcount_blocks);
    FIELD(xfs_agf, agf_refcount_root);
    FIELD(xfs_agf, agf_refcount_level);
    FIELD(xfs_agf, agf_spare64);
    FIELD(xfs_agf, agf_lsn);
    FIELD(xfs_agf, agf_crc);
    FIELD(xfs_agf, agf_spare2);
    SIZE(xfs_agf, sizeof(struct xfs_agf));
    FIELD(xfs_agi, agi_magicnum);
    FIELD(xfs_agi, agi_versionnum);
    FIELD(xfs_agi, agi_seqno);
    FIELD(xfs_agi, agi_length);
    FIELD(xfs_agi, agi_count);
    FIELD(xfs_agi, agi_root);
    FIELD(xfs_agi, agi_level);
    FIELD(xfs_agi, agi_freecount);
    FIELD(xfs_agi, agi_newino);
    FIELD(xfs_agi, agi_dirino);
    FIELD(xfs_agi, agi_unlinked);
    FIELD(xfs_agi, agi_uuid);
    FIELD(xfs_agi, agi_crc);
    FIELD(xfs_agi, agi_pad32);
    FIELD(xfs_agi, agi_lsn);
    FIELD(xfs_agi, agi_free_root);
    FIELD(xfs_agi, agi_free_level);
    FIELD(xfs_agi, agi_iblocks);
    FIELD(xfs_agi, agi_fblocks);
    SIZE(xfs_agi, sizeof(struct xfs_agi));
    FIELD(xfs_agfl, agfl_magicnum);
    FIELD(xfs_agfl, agfl_seqno);
    FIELD(xfs_agfl, agfl_uuid);
    FIELD(xfs_agfl, agfl_lsn);
    FIELD(xfs_agfl, agfl_crc);
    SIZE(xfs_agfl, sizeof(struct xfs_agfl));
}

// The short form of a block, with the fields of version 5.
static void leaf(void) {
    FIELD(xfs_btree_block, bb_magic);
    FIELD(xfs_btree_block, bb_level);
    FIELD(xfs_btree_block, bb_numrecs);
    LINE(xfs_btree_block, bb_leftsib, bb_u.s.bb_leftsib);
    LINE(xfs_btree_block, bb_rightsib, bb_u.s.bb_rightsib);
    LINE(xfs_btree_block, bb_blkno, bb_u.s.bb_blkno);
    LINE(xfs_btree_block, bb_lsn, bb_u.s.bb_lsn);
    LINE(xfs_btree_block, bb_uuid, bb_u.s.bb_uuid);
    LINE(xfs_btree_block, bb_owner, bb_u.s.bb_owner);
    LINE(xfs_btree_block, bb_crc, bb_u.s.bb_crc);
    SIZE(xfs_btree_block, XFS_BTREE_SBLOCK_CRC_LEN);
}

// Records of the trees; the inode record in its plain and in its sparse form.
static void records(void) {
    FIELD(xfs_alloc_rec, ar_startblock);
    FIELD(xfs_alloc_rec, ar_blockcount);
    SIZE(xfs_alloc_rec, sizeof(struct xfs_alloc_rec));
    FIELD(xfs_inobt_rec, ir_startino);
    LINE(xfs_inobt_rec, ir_freecount, ir_u.f.ir_freecount);
    LINE(xfs_inobt_rec, ir_holemask, ir_u.sp.ir_holemask);
    LINE(xfs_inobt_rec, ir_count, ir_u.sp.ir_count);
    LINE(xfs_inobt_rec, ir_sparse_freecount, ir_u.sp.ir_freecount);
    FIELD(xfs_inobt_rec, ir_free);
    SIZE(xfs_inobt_rec, sizeof(struct xfs_inobt_rec));
    FIELD(xfs_rmap_rec, rm_startblock);
    FIELD(xfs_rmap_rec, rm_blockcount);
    FIELD(xfs_rmap_rec, rm_owner);
    FIELD(xfs_rmap_rec, rm_offset);
    SIZE(xfs_rmap_rec, sizeof(struct xfs_rmap_rec));
    SIZE(xfs_refcount_rec, sizeof(struct xfs_refcount_rec));
}

static void inode(void) {
    FIELD(xfs_dinode, di_magic);
    FIELD(xfs_dinode, di_mode);
    FIELD(xfs_dinode, di_version);
    FIELD(xfs_dinode, di_format);
    FIELD(xfs_dinode, di_onlink);
    FIELD(xfs_dinode, di_uid);
    FIELD(xfs_dinode, di_gid);
    FIELD(xfs_dinode, di_nlink);
    FIELD(xfs_dinode, di_projid_lo);
    FIELD(xfs_dinode, di_projid_hi);
    FIELD(xfs_dinode, di_big_nextents);
    FIELD(xfs_dinode, di_v3_pad);
    FIELD(xfs_dinode, di_v2_pad);
    FIELD(xfs_dinode, di_flushiter);
    FIELD(xfs_dinode, di_atime);
    FIELD(xfs_dinode, di_mtime);
    FIELD(xfs_dinode, di_ctime);
    FIELD(xfs_dinode, di_size);
    FIELD(xfs_dinode, di_nblocks);
    FIELD(xfs_dinode, di_extsize);
    FIELD(xfs_dinode, di_nextents);
    FIELD(xfs_dinode, di_anextents);
    FIELD(xfs_dinode, di_big_anextents);
    FIELD(xfs_dinode, di_nrext64_pad);
    FIELD(xfs_dinode, di_forkoff);
    FIELD(xfs_dinode, di_aformat);
    FIELD(xfs_dinode, di_dmevmask);
    FIELD(xfs_dinode, di_dmstate);
    FIELD(xfs_dinode, di_flags);
    FIELD(xfs_dinode, di_gen);
    FIELD(xfs_dinode, di_next_unlinked);
    FIELD(xfs_dinode, di_crc);
    FIELD(xfs_dinode, di_changecount);
    FIELD(xfs_dinode, di_lsn);
    FIELD(xfs_dinode, di_flags2);
    FIELD(xfs_dinode, di_cowextsize);
    FIELD(xfs_dinode, di_pad2);
    FIELD(xfs_dinode, di_crtime);
    FIELD(xfs_dinode, di_ino);
    FIELD(xfs_dinode, di_uuid);
    SIZE(xfs_dinode, sizeof(struct xfs_dinode));
}

// The record's header, one of its further headers, and the unmount operation.
static void log_record(void) {
    FIELD(xlog_rec_header, h_magicno);
    FIELD(xlog_rec_header, h_cycle);
    FIELD(xlog_rec_header, h_version);
    FIELD(xlog_rec_header, h_len);
    FIELD(xlog_rec_header, h_lsn);
    FIELD(xlog_rec_header, h_tail_lsn);
    FIELD(xlog_rec_header, h_crc);
    FIELD(xlog_rec_header, h_prev_block);
    FIELD(xlog_rec_header, h_num_logops);
    FIELD(xlog_rec_header, h_cycle_data);
    FIELD(xlog_rec_header, h_fmt);
    FIELD(xlog_rec_header, h_fs_uuid);
    FIELD(xlog_rec_header, h_size);
    SIZE(xlog_rec_header, sizeof(struct xlog_rec_header));
    FIELD(xlog_rec_ext_header, xh_cycle);
    FIELD(xlog_rec_ext_header, xh_cycle_data);
    SIZE(xlog_rec_ext_header, sizeof(struct xlog_rec_ext_header));
    FIELD(xlog_op_header, oh_tid);
    FIELD(xlog_op_header, oh_len);
    FIELD(xlog_op_header, oh_clientid);
    FIELD(xlog_op_header, oh_flags);
    FIELD(xlog_op_header, oh_res2);
    SIZE(xlog_op_header, sizeof(struct xlog_op_header));
    FIELD(xfs_unmount_log_format, magic);
    FIELD(xfs_unmount_log_format, pad1);
    FIELD(xfs_unmount_log_format, pad2);
    SIZE(xfs_unmount_log_format, sizeof(struct xfs_unmount_log_format));
}

int main(void) {
    superblock();
    group_headers();
    leaf();
    records();
    inode();
    log_record();
    return 0;
}
